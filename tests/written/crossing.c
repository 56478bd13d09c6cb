
struct f_Pause {
    uint8_t c0;
};

struct m_Pause {
    uint8_t v1_passed;
};

struct f_Button {
    uint8_t c0;
};

struct f_Blink {
    uint8_t c0;
};

struct f_Crossing {
    uint8_t c0;
    uint8_t c1;
    struct f_Button x27_Button;
    struct f_Pause x28_Pause;
    struct f_Pause x4_Pause;
    struct f_Pause x7_Pause;
    struct f_Pause x12_Pause;
    struct f_Blink x14_Blink;
    struct f_Pause x19_Pause;
    struct f_Pause x22_Pause;
};

struct m_Crossing {
    struct m_Pause x28_Pause;
    struct m_Pause x4_Pause;
    struct m_Pause x7_Pause;
    struct m_Pause x12_Pause;
    struct m_Pause x19_Pause;
    struct m_Pause x22_Pause;
};

struct bl_state {
    struct f_Crossing f;
    struct m_Crossing m;
};

struct bl_in {
    uint8_t pad;
    bool i_button;
};

struct bl_out {
    uint8_t pad;
    uint8_t o_cars;
    bool o_walk;
    bool o_lamp;
    bool o_beacon;
};

static void a_Pause(struct f_Pause *f, struct m_Pause *m, uint8_t v0_ticks, bool *e) {
    if (((*f).c0 == UINT8_C(0))) {
        (*m).v1_passed = UINT8_C(0);
        (*f).c0 = UINT8_C(1);
    } else {
        (*m).v1_passed = bl_add_n8((*m).v1_passed, UINT8_C(1));
        if (((*m).v1_passed >= v0_ticks)) {
            (*e) = true;
        } else {
            (*f).c0 = UINT8_C(1);
        }
    }
}

static void a_Button(struct f_Button *f, bool v0_button, bool *v1_lamp) {
    if (v0_button) {
        (*v1_lamp) = true;
    }
    (*f).c0 = UINT8_C(1);
}

static void a_Blink(struct f_Blink *f, bool *v0_lamp) {
    if (((*f).c0 == UINT8_C(1))) {
        (*v0_lamp) = false;
        (*f).c0 = UINT8_C(2);
    } else {
        (*v0_lamp) = true;
        (*f).c0 = UINT8_C(1);
    }
}

static void a_Crossing(struct f_Crossing *f, struct m_Crossing *m, bool *v0_button, uint8_t *v1_cars, bool *v2_walk, bool *v3_lamp, bool *v4_beacon) {
    uint8_t w0 = 0;
    bool g14_run_Blink = 0;
    bool g24_repeat = 0;
    bool ended = 0;
    w0 = (*f).c0;
    g24_repeat = (w0 == UINT8_C(0));
    if (((*f).c0 == UINT8_C(2))) {
        a_Button(&(*f).x27_Button, (*v0_button), &(*v3_lamp));
    }
    if ((((*f).c1 == UINT8_C(3)) && (*v3_lamp))) {
        (*f).c1 = UINT8_C(1);
    }
    if (((*f).c1 == UINT8_C(1))) {
        (*f).c0 = UINT8_C(0);
        (*f).c1 = UINT8_C(0);
        (*v1_cars) = UINT8_C(3);
        (*f).x4_Pause = (struct f_Pause){0};
        (*f).c0 = UINT8_C(3);
    }
    if (((*f).c0 == UINT8_C(3))) {
        a_Pause(&(*f).x4_Pause, &(*m).x4_Pause, UINT8_C(2), &ended);
        if (ended) {
            (*v1_cars) = UINT8_C(0);
            (*f).x7_Pause = (struct f_Pause){0};
            (*f).c0 = UINT8_C(4);
        }
    }
    if (((*f).c0 == UINT8_C(4))) {
        ended = false;
        a_Pause(&(*f).x7_Pause, &(*m).x7_Pause, UINT8_C(1), &ended);
        if (ended) {
            (*v2_walk) = true;
            (*v3_lamp) = false;
            g14_run_Blink = true;
            (*f).x12_Pause = (struct f_Pause){0};
            (*f).c0 = UINT8_C(6);
        }
    }
    if (((*f).c0 == UINT8_C(6))) {
        ended = false;
        a_Pause(&(*f).x12_Pause, &(*m).x12_Pause, UINT8_C(4), &ended);
        if (ended) {
            (*f).c0 = UINT8_C(5);
        }
    }
    if (g14_run_Blink) {
        (*f).x14_Blink = (struct f_Blink){0};
        (*f).c1 = UINT8_C(5);
    }
    if (((*f).c1 == UINT8_C(5))) {
        a_Blink(&(*f).x14_Blink, &(*v4_beacon));
    }
    if (((*f).c0 == UINT8_C(5))) {
        (*f).c0 = UINT8_C(0);
        (*f).c1 = UINT8_C(0);
        (*v2_walk) = false;
        (*v4_beacon) = false;
        (*f).x19_Pause = (struct f_Pause){0};
        (*f).c0 = UINT8_C(7);
    }
    if (((*f).c0 == UINT8_C(7))) {
        ended = false;
        a_Pause(&(*f).x19_Pause, &(*m).x19_Pause, UINT8_C(1), &ended);
        if (ended) {
            (*v1_cars) = UINT8_C(1);
            (*f).x22_Pause = (struct f_Pause){0};
            (*f).c0 = UINT8_C(8);
        }
    }
    if (((*f).c0 == UINT8_C(8))) {
        ended = false;
        a_Pause(&(*f).x22_Pause, &(*m).x22_Pause, UINT8_C(2), &ended);
        if (ended) {
            g24_repeat = true;
        }
    }
    if (g24_repeat) {
        (*v1_cars) = UINT8_C(2);
        (*f).x27_Button = (struct f_Button){0};
        (*f).c0 = UINT8_C(2);
        a_Button(&(*f).x27_Button, (*v0_button), &(*v3_lamp));
        (*f).x28_Pause = (struct f_Pause){0};
        (*f).c1 = UINT8_C(2);
    }
    if (((*f).c1 == UINT8_C(2))) {
        ended = false;
        a_Pause(&(*f).x28_Pause, &(*m).x28_Pause, UINT8_C(4), &ended);
        if (ended) {
            (*f).c1 = UINT8_C(3);
        }
    }
}

void bl_init(struct bl_state *s) {
    (*s) = (struct bl_state){0};
}

uint32_t bl_tick(struct bl_state *s, struct bl_in *i, struct bl_out *o) {
    a_Crossing(&(*s).f, &(*s).m, &(*i).i_button, &(*o).o_cars, &(*o).o_walk, &(*o).o_lamp, &(*o).o_beacon);
    return UINT32_C(0);
}
