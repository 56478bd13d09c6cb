
struct f_Heater {
    uint8_t c0;
};

struct bl_state {
    struct f_Heater f;
};

struct bl_in {
    uint8_t pad;
    bool i_cold;
    bool i_warm;
    int32_t i_more;
};

struct bl_out {
    uint8_t pad;
    bool o_valve;
    int32_t o_heat;
    int32_t o_starts;
};

static void a_Heater(struct f_Heater *f, bool *v0_cold, bool *v1_warm, int32_t *v2_more, bool *v3_valve, int32_t *v4_heat, int32_t *v5_starts) {
    if (((*f).c0 == UINT8_C(1))) {
        if ((*v0_cold)) {
            (*v3_valve) = true;
            (*v4_heat) = bl_add_i32(INT32_C(20), (*v2_more));
            (*v5_starts) = bl_add_i32((*v5_starts), INT32_C(1));
            (*f).c0 = UINT8_C(2);
        }
    } else { if (((((*f).c0 == UINT8_C(2)) && (*v1_warm)) || ((*f).c0 == UINT8_C(0)))) {
        (*v3_valve) = false;
        (*v4_heat) = INT32_C(0);
        (*f).c0 = UINT8_C(1);
    }}
}

void bl_init(struct bl_state *s) {
    (*s) = (struct bl_state){0};
}

uint32_t bl_tick(struct bl_state *s, struct bl_in *i, struct bl_out *o) {
    a_Heater(&(*s).f, &(*i).i_cold, &(*i).i_warm, &(*i).i_more, &(*o).o_valve, &(*o).o_heat, &(*o).o_starts);
    return UINT32_C(0);
}
