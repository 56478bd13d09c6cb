
struct s_Line {
    bool m_valve;
    uint32_t m_given;
};

struct s_Plant {
    struct s_Line m_left;
    struct s_Line m_right;
};

struct f_Dose {
    uint8_t c0;
};

struct f_Dosing {
    uint8_t c0;
    uint8_t c1;
    uint8_t c2;
    struct f_Dose x3_Dose;
    struct f_Dose x5_Dose;
};

struct m_Dosing {
    struct s_Plant v9_plant;
    uint8_t v10_stirred;
};

struct bl_state {
    struct f_Dosing f;
    struct m_Dosing m;
};

struct bl_in {
    uint8_t pad;
    bool i_start;
    uint16_t i_wanted_left;
    uint16_t i_flow_left;
    uint16_t i_wanted_right;
    uint16_t i_flow_right;
};

struct bl_out {
    uint8_t pad;
    bool o_valve_left;
    bool o_valve_right;
    bool o_stirrer;
    uint32_t o_batch;
};

static void a_Dose(struct f_Dose *f, uint16_t v0_wanted, uint16_t v1_flow, struct s_Line *v2_line, bool *e) {
    if (((*f).c0 == UINT8_C(0))) {
        (*v2_line).m_given = UINT32_C(0);
        (*v2_line).m_valve = (v0_wanted > UINT16_C(0));
        (*f).c0 = UINT8_C(1);
    } else {
        (*v2_line).m_given = bl_add_n32((*v2_line).m_given, bl_of_u_n32(v1_flow));
        if (((*v2_line).m_given >= bl_of_u_n32(v0_wanted))) {
            (*v2_line).m_valve = false;
            (*e) = true;
        } else {
            (*f).c0 = UINT8_C(1);
        }
    }
}

static void a_Dosing(struct f_Dosing *f, struct m_Dosing *m, bool *v0_start, uint16_t *v1_wanted_left, uint16_t *v2_flow_left, uint16_t *v3_wanted_right, uint16_t *v4_flow_right, bool *v5_valve_left, bool *v6_valve_right, bool *v7_stirrer, uint32_t *v8_batch) {
    bool g5_run_Dose = 0;
    bool g8_repeat = 0;
    bool ended = 0;
    if (((*f).c0 == UINT8_C(0))) {
        (*m).v9_plant = (struct s_Plant){0};
        (*f).c0 = UINT8_C(1);
    } else {
        if ((((*f).c0 == UINT8_C(1)) && (*v0_start))) {
            g5_run_Dose = true;
            g8_repeat = true;
            (*f).x3_Dose = (struct f_Dose){0};
            (*f).c0 = UINT8_C(3);
        }
        if (((*f).c0 == UINT8_C(3))) {
            a_Dose(&(*f).x3_Dose, (*v1_wanted_left), (*v2_flow_left), &(*m).v9_plant.m_left, &ended);
            if (ended) {
                (*f).c0 = UINT8_C(2);
            }
        }
        if (g5_run_Dose) {
            (*f).x5_Dose = (struct f_Dose){0};
            (*f).c1 = UINT8_C(2);
        }
        if (((*f).c1 == UINT8_C(2))) {
            ended = false;
            a_Dose(&(*f).x5_Dose, (*v3_wanted_right), (*v4_flow_right), &(*m).v9_plant.m_right, &ended);
            if (ended) {
                (*f).c1 = UINT8_C(1);
            }
        }
        if (((*f).c2 == UINT8_C(2))) {
            g8_repeat = true;
        }
        if (g8_repeat) {
            (*v5_valve_left) = (*m).v9_plant.m_left.m_valve;
            (*v6_valve_right) = (*m).v9_plant.m_right.m_valve;
            (*v8_batch) = bl_add_n32((*m).v9_plant.m_left.m_given, (*m).v9_plant.m_right.m_given);
            (*f).c2 = UINT8_C(2);
            if ((((*f).c0 == UINT8_C(2)) && ((*f).c1 == UINT8_C(1)))) {
                (*f).c0 = UINT8_C(0);
                (*f).c1 = UINT8_C(0);
                (*f).c2 = UINT8_C(0);
                (*v7_stirrer) = true;
                (*m).v10_stirred = UINT8_C(0);
                (*f).c0 = UINT8_C(4);
            }
        } else { if (((*f).c0 == UINT8_C(4))) {
            (*m).v10_stirred = bl_add_n8((*m).v10_stirred, UINT8_C(1));
            if (((*m).v10_stirred == UINT8_C(2))) {
                (*v7_stirrer) = false;
                (*f).c0 = UINT8_C(1);
            } else {
                (*f).c0 = UINT8_C(4);
            }
        }}
    }
}

void bl_init(struct bl_state *s) {
    (*s) = (struct bl_state){0};
}

uint32_t bl_tick(struct bl_state *s, struct bl_in *i, struct bl_out *o) {
    a_Dosing(&(*s).f, &(*s).m, &(*i).i_start, &(*i).i_wanted_left, &(*i).i_flow_left, &(*i).i_wanted_right, &(*i).i_flow_right, &(*o).o_valve_left, &(*o).o_valve_right, &(*o).o_stirrer, &(*o).o_batch);
    return UINT32_C(0);
}
