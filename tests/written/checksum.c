
struct f_Checksum {
    uint8_t c0;
};

struct bl_state {
    struct f_Checksum f;
};

struct bl_in {
    uint8_t pad;
    bool i_begin;
    bool i_ready;
    uint8_t i_byte;
    bool i_last;
};

struct bl_out {
    uint8_t pad;
    uint16_t o_sum;
    uint16_t o_bytes;
    bool o_good;
    bool o_bad;
};

static uint16_t a_Over(uint16_t v0_sum, uint8_t v1_byte) {
    uint16_t v2_next = 0;
    int32_t v3_bit = 0;
    v2_next = bl_xor_b16(v0_sum, bl_shl_b16(bl_of_u_b16(v1_byte), UINT16_C(8)));
    v3_bit = INT32_C(0);
    {
        uint32_t t0 = 0;
        while ((v3_bit < INT32_C(8))) {
            t0 = bl_turn(t0);
            if ((bl_and_b16(v2_next, UINT16_C(32768)) != UINT16_C(0))) {
                v2_next = bl_xor_b16(bl_shl_b16(v2_next, UINT16_C(1)), UINT16_C(4129));
            } else {
                v2_next = bl_shl_b16(v2_next, UINT16_C(1));
            }
            v3_bit = bl_add_i32(v3_bit, INT32_C(1));
        }
    }
    return v2_next;
}

static void a_Checksum(struct f_Checksum *f, bool *v0_begin, bool *v1_ready, uint8_t *v2_byte, bool *v3_last, uint16_t *v4_sum, uint16_t *v5_bytes, bool *v6_good, bool *v7_bad) {
    if ((((*f).c0 == UINT8_C(1)) && (*v0_begin))) {
        (*v4_sum) = UINT16_C(65535);
        (*v5_bytes) = UINT16_C(0);
        (*v6_good) = false;
        (*v7_bad) = false;
        (*f).c0 = UINT8_C(2);
    } else { if ((((*f).c0 == UINT8_C(2)) && (*v1_ready))) {
        (*v4_sum) = a_Over((*v4_sum), (*v2_byte));
        (*v5_bytes) = bl_add_n16((*v5_bytes), UINT16_C(1));
        if ((*v3_last)) {
            (*v6_good) = ((*v4_sum) == UINT16_C(0));
            (*v7_bad) = (!(*v6_good));
            (*f).c0 = UINT8_C(1);
        } else {
            (*f).c0 = UINT8_C(2);
        }
    } else { if (((*f).c0 == UINT8_C(0))) {
        (*f).c0 = UINT8_C(1);
    }}}
}

void bl_init(struct bl_state *s) {
    (*s) = (struct bl_state){0};
}

uint32_t bl_tick(struct bl_state *s, struct bl_in *i, struct bl_out *o) {
    a_Checksum(&(*s).f, &(*i).i_begin, &(*i).i_ready, &(*i).i_byte, &(*i).i_last, &(*o).o_sum, &(*o).o_bytes, &(*o).o_good, &(*o).o_bad);
    return UINT32_C(0);
}
