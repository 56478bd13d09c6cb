
struct f_Valve {
    uint8_t c0;
};

struct bl_state {
    struct f_Valve f;
};

struct bl_in {
    uint8_t pad;
    int32_t i_level;
};

struct bl_out {
    uint8_t pad;
    int32_t o_valve;
};

static void a_Valve(struct f_Valve *f, int32_t *v0_level, int32_t *v1_valve) {
    if (((*v0_level) < INT32_C(500))) {
        (*v1_valve) = INT32_C(10);
    } else {
        (*v1_valve) = INT32_C(0);
    }
    (*f).c0 = UINT8_C(1);
}

void bl_init(struct bl_state *s) {
    (*s) = (struct bl_state){0};
}

uint32_t bl_tick(struct bl_state *s, struct bl_in *i, struct bl_out *o) {
    a_Valve(&(*s).f, &(*i).i_level, &(*o).o_valve);
    return UINT32_C(0);
}
