
struct r4_n8 {
    uint8_t e[4];
};

struct f_Keypad {
    uint8_t c0;
};

struct m_Keypad {
    struct r4_n8 v5_ticks;
    uint8_t v6_held;
};

struct bl_state {
    struct f_Keypad f;
    struct m_Keypad m;
};

struct bl_in {
    uint8_t pad;
    uint8_t i_raw;
};

struct bl_out {
    uint8_t pad;
    uint8_t o_keys;
    uint8_t o_pressed;
    uint8_t o_released;
    int8_t o_last;
};

static void a_Settle(uint8_t v0_raw, struct r4_n8 *v1_ticks, uint8_t *v2_held) {
    int32_t v3_key = 0;
    uint8_t v4_bit = 0;
    v3_key = INT32_C(0);
    v4_bit = UINT8_C(1);
    {
        uint32_t t0 = 0;
        while ((v3_key < INT32_C(4))) {
            t0 = bl_turn(t0);
            if ((bl_and_b8(bl_xor_b8(v0_raw, (*v2_held)), v4_bit) == UINT8_C(0))) {
                (*v1_ticks).e[bl_ix_s(v3_key, 4)] = UINT8_C(0);
            } else { if ((bl_add_n8((*v1_ticks).e[bl_ix_s(v3_key, 4)], UINT8_C(1)) < UINT8_C(3))) {
                (*v1_ticks).e[bl_ix_s(v3_key, 4)] = bl_add_n8((*v1_ticks).e[bl_ix_s(v3_key, 4)], UINT8_C(1));
            } else {
                (*v1_ticks).e[bl_ix_s(v3_key, 4)] = UINT8_C(0);
                (*v2_held) = bl_xor_b8((*v2_held), v4_bit);
            }}
            v3_key = bl_add_i32(v3_key, INT32_C(1));
            v4_bit = bl_shl_b8(v4_bit, UINT8_C(1));
        }
    }
}

static int8_t a_Lowest(uint8_t v0_keys) {
    int8_t v1_key = 0;
    uint8_t v2_rest = 0;
    v1_key = INT8_C(0);
    v2_rest = v0_keys;
    {
        uint32_t t0 = 0;
        while (((v2_rest != UINT8_C(0)) && (bl_and_b8(v2_rest, UINT8_C(1)) == UINT8_C(0)))) {
            t0 = bl_turn(t0);
            v1_key = bl_add_i8(v1_key, INT8_C(1));
            v2_rest = bl_shr_b8(v2_rest, UINT8_C(1));
        }
    }
    if ((v0_keys == UINT8_C(0))) {
        return (-INT8_C(1));
    } else {
        return v1_key;
    }
}

static void a_Keypad(struct f_Keypad *f, struct m_Keypad *m, uint8_t *v0_raw, uint8_t *v1_keys, uint8_t *v2_pressed, uint8_t *v3_released, int8_t *v4_last) {
    uint8_t p6_held = 0;
    p6_held = (*m).v6_held;
    if (((*f).c0 == UINT8_C(0))) {
        (*m).v5_ticks = (struct r4_n8){0};
        (*m).v6_held = UINT8_C(0);
        p6_held = (*m).v6_held;
        (*v4_last) = (-INT8_C(1));
    }
    a_Settle((*v0_raw), &(*m).v5_ticks, &(*m).v6_held);
    (*v1_keys) = (*m).v6_held;
    (*v2_pressed) = bl_and_b8((*m).v6_held, bl_not_b8(p6_held));
    (*v3_released) = bl_and_b8(bl_not_b8((*m).v6_held), p6_held);
    if (((*v2_pressed) != UINT8_C(0))) {
        (*v4_last) = a_Lowest((*v2_pressed));
    }
    (*f).c0 = UINT8_C(1);
}

void bl_init(struct bl_state *s) {
    (*s) = (struct bl_state){0};
}

uint32_t bl_tick(struct bl_state *s, struct bl_in *i, struct bl_out *o) {
    a_Keypad(&(*s).f, &(*s).m, &(*i).i_raw, &(*o).o_keys, &(*o).o_pressed, &(*o).o_released, &(*o).o_last);
    return UINT32_C(0);
}
