
struct f_Blinker {
    uint8_t c0;
};

struct bl_state {
    struct f_Blinker f;
};

struct bl_in {
    uint8_t pad;
    bool i_switch;
};

struct bl_out {
    uint8_t pad;
    bool o_on;
    int32_t o_count;
};

static void a_Blinker(struct f_Blinker *f, bool *v0_switch, bool *v1_on, int32_t *v2_count) {
    if (((*f).c0 == UINT8_C(1))) {
        if ((*v0_switch)) {
            (*v1_on) = true;
            (*v2_count) = bl_add_i32((*v2_count), INT32_C(1));
            (*f).c0 = UINT8_C(2);
        }
    } else {
        if (((*f).c0 == UINT8_C(2))) {
            (*v1_on) = false;
        }
        (*f).c0 = UINT8_C(1);
    }
}

void bl_init(struct bl_state *s) {
    (*s) = (struct bl_state){0};
}

uint32_t bl_tick(struct bl_state *s, struct bl_in *i, struct bl_out *o) {
    a_Blinker(&(*s).f, &(*i).i_switch, &(*o).o_on, &(*o).o_count);
    return UINT32_C(0);
}
