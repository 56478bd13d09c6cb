
struct f_Door {
    uint8_t c0;
};

struct bl_state {
    struct f_Door f;
};

struct bl_in {
    uint8_t pad;
    bool i_stop;
    bool i_call;
    bool i_edge;
    bool i_opened;
    bool i_closed;
};

struct bl_out {
    uint8_t pad;
    int8_t o_drive;
    uint8_t o_held;
    uint16_t o_openings;
};

static void a_Door(struct f_Door *f, bool *v0_stop, bool *v1_call, bool *v2_edge, bool *v3_opened, bool *v4_closed, int8_t *v5_drive, uint8_t *v6_held, uint16_t *v7_openings) {
    if (((((*f).c0 >= UINT8_C(1)) && ((*f).c0 <= bl_of_u_n8(UINT8_C(4)))) && (*v0_stop))) {
        (*f).c0 = UINT8_C(0);
        (*v5_drive) = INT8_C(0);
        (*f).c0 = UINT8_C(5);
    } else { if ((((*f).c0 == UINT8_C(1)) && (*v1_call))) {
        (*v6_held) = UINT8_C(0);
        (*v7_openings) = bl_add_b16((*v7_openings), UINT16_C(1));
        (*v5_drive) = INT8_C(1);
        (*f).c0 = UINT8_C(2);
    } else { if (((((*f).c0 >= UINT8_C(2)) && ((*f).c0 <= bl_of_u_n8(UINT8_C(4)))) && (*v2_edge))) {
        (*f).c0 = UINT8_C(0);
        (*v6_held) = UINT8_C(0);
        (*v7_openings) = bl_add_b16((*v7_openings), UINT16_C(1));
        (*v5_drive) = INT8_C(1);
        (*f).c0 = UINT8_C(2);
    } else { if ((((*f).c0 == UINT8_C(2)) && (*v3_opened))) {
        (*v5_drive) = INT8_C(0);
        (*f).c0 = UINT8_C(3);
    } else { if (((*f).c0 == UINT8_C(3))) {
        (*v6_held) = bl_add_n8((*v6_held), UINT8_C(1));
        if (((*v6_held) == UINT8_C(3))) {
            (*v5_drive) = (-INT8_C(1));
            (*f).c0 = UINT8_C(4);
        } else {
            (*f).c0 = UINT8_C(3);
        }
    } else { if (((*f).c0 == UINT8_C(4))) {
        if ((*v4_closed)) {
            (*v5_drive) = INT8_C(0);
            (*f).c0 = UINT8_C(1);
        }
    } else { if (((((*f).c0 == UINT8_C(5)) && (!(*v0_stop))) || ((*f).c0 == UINT8_C(0)))) {
        (*f).c0 = UINT8_C(1);
    }}}}}}}
}

void bl_init(struct bl_state *s) {
    (*s) = (struct bl_state){0};
}

uint32_t bl_tick(struct bl_state *s, struct bl_in *i, struct bl_out *o) {
    a_Door(&(*s).f, &(*i).i_stop, &(*i).i_call, &(*i).i_edge, &(*i).i_opened, &(*i).i_closed, &(*o).o_drive, &(*o).o_held, &(*o).o_openings);
    return UINT32_C(0);
}
