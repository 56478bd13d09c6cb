
struct f_Lamp {
    uint8_t c0;
};

struct bl_state {
    struct f_Lamp f;
};

struct bl_in {
    uint8_t pad;
};

struct bl_out {
    uint8_t pad;
    bool o_on;
};

static void a_Lamp(struct f_Lamp *f, bool *v0_on) {
    if (((*f).c0 == UINT8_C(1))) {
        (*v0_on) = false;
        (*f).c0 = UINT8_C(2);
    } else {
        (*v0_on) = true;
        (*f).c0 = UINT8_C(1);
    }
}

void bl_init(struct bl_state *s) {
    (*s) = (struct bl_state){0};
}

uint32_t bl_tick(struct bl_state *s, struct bl_in *i, struct bl_out *o) {
    a_Lamp(&(*s).f, &(*o).o_on);
    return UINT32_C(0);
}
