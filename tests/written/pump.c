
struct f_Pump {
    uint8_t c0;
};

struct bl_state {
    struct f_Pump f;
};

struct bl_in {
    uint8_t pad;
    bool i_demand;
    int32_t i_flow;
};

struct bl_out {
    uint8_t pad;
    int32_t o_last;
    int32_t o_total;
    int32_t o_strokes;
};

static void a_Pump(struct f_Pump *f, bool *v0_demand, int32_t *v1_flow, int32_t *v2_last, int32_t *v3_total, int32_t *v4_strokes) {
    if (((*f).c0 != UINT8_C(0))) {
        if ((*v0_demand)) {
            (*v2_last) = (*v1_flow);
            (*v3_total) = bl_add_i32((*v3_total), (*v1_flow));
            (*v4_strokes) = bl_add_i32((*v4_strokes), INT32_C(1));
            (*f).c0 = UINT8_C(1);
        }
    } else {
        (*f).c0 = UINT8_C(1);
    }
}

void bl_init(struct bl_state *s) {
    (*s) = (struct bl_state){0};
}

uint32_t bl_tick(struct bl_state *s, struct bl_in *i, struct bl_out *o) {
    a_Pump(&(*s).f, &(*i).i_demand, &(*i).i_flow, &(*o).o_last, &(*o).o_total, &(*o).o_strokes);
    return UINT32_C(0);
}
