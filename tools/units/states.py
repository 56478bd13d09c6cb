"""The C of a unit that writes the state of a controller as bytes, and takes it back."""
import os

from shared import Fault
from texts import NUMBER, SIGNED, is_scalar, width_of

# behind the number of the text stands a check sum, and behind that a saved state as `blechc save` writes it
SUM, HEAD = 4, 10
FRONT = NUMBER + SUM + HEAD
MOST_CELLS = 1000000


def saved_size(text):
    """The number of cells of the three objects, and of their bytes."""
    sizes = text.sizes()
    both = [sizes[it] for it in ("bl_state", "bl_in", "bl_out")]
    return sum(it[0] for it in both), sum(it[1] for it in both)


def put_line(member, place):
    """The statement that puts a member's cell or struct down."""
    if not is_scalar(member):
        return f"next = put_{member.type}(bytes, next, &{place});"
    if member.type == "bool":
        return f"next = put(bytes, next, {place} ? UINT64_C(1) : UINT64_C(0), 1u);"
    middle = "(uint64_t)(int64_t)" if SIGNED.fullmatch(member.type) else "(uint64_t)"
    return f"next = put(bytes, next, {middle}{place}, {width_of(member.type)}u);"


def get_lines(member, place):
    """The statements that take a member's cell or struct up."""
    if not is_scalar(member):
        return [f"next = get_{member.type}(bytes, next, &{place}, good);"]
    size = width_of(member.type)
    if member.type == "bool":
        return ["if (bytes[next] > 1u) {", "    *good = false;", "}", f"{place} = (bytes[next] == 1u);", "next += 1u;"]
    value = f"get(bytes, next, {size}u)"
    if SIGNED.fullmatch(member.type):
        value = f"signed_of({value}, UINT64_C({1 << 8 * size - 1}))"
    return [f"{place} = ({member.type}){value};", f"next += {size}u;"]


def members_of(members, way):
    """The statements for the members of a struct, those of arrays in loops."""
    lines = []
    for it in members:
        inner = way(it, f"it->{it.name}[k]" if it.length else f"it->{it.name}")
        if it.length:
            lines += [f"    for (uint32_t k = 0u; k < {it.length}u; k++) {{", *[f"        {one}" for one in inner], "    }"]
        else:
            lines += [f"    {one}" for one in inner]
    return lines


def counter_checks(text, name, members):
    """The statements that refuse a counter beyond the greatest number that the text sets it to."""
    lines = []
    for it in members:
        values = text.counters.get((name, it.name))
        if values and max(values) < (1 << 8 * width_of(it.type)) - 1:
            lines += [f"    if (it->{it.name} > {max(values)}u) {{", "        *good = false;", "    }"]
    return lines


def struct_functions(text, name, members):
    """The two functions of a struct."""
    checks = counter_checks(text, name, members)
    puts = members_of(members, lambda it, place: [put_line(it, place)])
    return [f"static uint32_t put_{name}(uint8_t *bytes, uint32_t at, const struct {name} *it)", "{", "    uint32_t next = at;", *puts,
            "    return next;", "}", "",
            f"static uint32_t get_{name}(const uint8_t *bytes, uint32_t at, struct {name} *it, bool *good)", "{", "    uint32_t next = at;",
            *([] if uses_good(members) or checks else ["    (void)good;"]), *members_of(members, get_lines), *checks, "    return next;", "}", ""]


def uses_good(members):
    """Whether a struct has a bool, or a struct that may have one."""
    return any(it.type == "bool" or not is_scalar(it) for it in members)


def needed_structs(text):
    """The structs that the three objects hold, in the order of the text."""
    needed = {"bl_state", "bl_in", "bl_out"}
    for name in reversed(list(text.structs)):
        if name in needed:
            needed |= {it.type for it in text.structs[name]}
    return {name: members for name, members in text.structs.items() if name in needed}


def helpers_of(members):
    """The functions that put one cell down and take it up, those that are needed."""
    kinds = {it.type for it in members}
    lines = ["/* Puts the lowest bytes of a number down, the most significant first; answers where the next stands. */",
             "static uint32_t put(uint8_t *bytes, uint32_t at, uint64_t value, uint32_t size)", "{",
             "    for (uint32_t k = 0u; k < size; k++) {", "        const uint32_t shift = 8u * (size - 1u - k);",
             "        bytes[at + k] = (uint8_t)((value >> shift) & 0xFFu);", "    }",
             "    return at + size;", "}", "",
             "static uint64_t get(const uint8_t *bytes, uint32_t at, uint32_t size)", "{", "    uint64_t value = 0u;",
             "    for (uint32_t k = 0u; k < size; k++) {", "        value = (value << 8u) | bytes[at + k];", "    }", "    return value;", "}", ""]
    if any(SIGNED.fullmatch(it) for it in kinds):
        lines += ["/* A number in two's complement, of which the sign has this weight. */",
                  "static int64_t signed_of(uint64_t value, uint64_t sign)", "{",
                  "    const uint64_t below = ((sign - 1u) + sign) - value;",
                  "    return (value < sign) ? (int64_t)value : (-1 - (int64_t)below);", "}", ""]
    return lines


SUM_OF = """/* The check sum of bytes (CRC-32), from that of those before them on. */
static uint32_t sum_of(const uint8_t *bytes, uint32_t from, uint32_t to, uint32_t before)
{
    uint32_t sum = before;
    for (uint32_t k = from; k < to; k++) {
        sum ^= bytes[k];
        for (uint32_t bit = 0u; bit < 8u; bit++) {
            sum = ((sum & 1u) != 0u) ? ((sum >> 1u) ^ UINT32_C(0xEDB88320)) : (sum >> 1u);
        }
    }
    return sum;
}

/* The check sum of a state: that of the number of the text, and of what stands behind the sum. */
static uint32_t sum_of_state(const uint8_t *bytes)
{
    const uint32_t front = sum_of(bytes, 0u, NUMBERu, UINT32_C(0xFFFFFFFF));
    return sum_of(bytes, CELLSu, SIZEu, front) ^ UINT32_C(0xFFFFFFFF);
}
"""


def save_of(text, names):
    """The function that writes the state."""
    name = names.name
    return [f"bool {name}_save(uint8_t *bytes)", "{", f"    bool good = (unit.run == {names.capital}_GOES_ON);", "    if (good) {",
            f"        uint32_t next = {FRONT}u;", f"        for (uint32_t k = 0u; k < {FRONT}u; k++) {{", "            bytes[k] = front[k];",
            "        }", "        next = put_bl_state(bytes, next, &unit.state);", "        next = put_bl_in(bytes, next, &unit.in);",
            "        (void)put_bl_out(bytes, next, &unit.out);", f"        (void)put(bytes, {NUMBER}u, (uint64_t)sum_of_state(bytes), {SUM}u);",
            "    }", "    return good;", "}", ""]


def restore_of(names):
    """The function that takes the state back."""
    name = names.name
    return [f"bool {name}_restore(const uint8_t *bytes)", "{", f"    bool good = (get(bytes, {NUMBER}u, {SUM}u) == (uint64_t)sum_of_state(bytes));",
            f"    for (uint32_t k = 0u; k < {FRONT}u; k++) {{",
            f"        if (((k < {NUMBER}u) || (k >= {NUMBER + SUM}u)) && (bytes[k] != front[k])) {{", "            good = false;", "        }",
            "    }", "    if (good) {", f"        uint32_t next = get_bl_state(bytes, {FRONT}u, &unit.state, &good);",
            "        next = get_bl_in(bytes, next, &unit.in, &good);", "        (void)get_bl_out(bytes, next, &unit.out, &good);",
            f"        unit.run = {names.capital}_GOES_ON;", "    }", "    if (!good) {", f"        {name}_reset();", "    }",
            "    return good;", "}", ""]


def state_of(text, names):
    """What the unit has of the state as bytes."""
    structs, (cells, size) = needed_structs(text), saved_size(text)
    if cells > MOST_CELLS:
        raise Fault(f"{text.path}: its objects have {cells} cells, and a saved state at most {MOST_CELLS}")
    front = [*text.number, *bytes(SUM), *b"BLSV1\n", *cells.to_bytes(4, "big")]
    lines = helpers_of([it for members in structs.values() for it in members])
    for struct, members in structs.items():
        lines += struct_functions(text, struct, members)
    sums = SUM_OF.replace("NUMBER", str(NUMBER)).replace("CELLS", str(NUMBER + SUM)).replace("SIZE", str(FRONT + size))
    return [*lines, *sums.split("\n"),
            f"/* the first {NUMBER} bytes of the SHA-256 of {os.path.basename(text.path)}, room for the sum, and the front of a saved state */",
            f"static const uint8_t front[{FRONT}] = {{{', '.join(f'{it}u' for it in front)}}};", "",
            *save_of(text, names), *restore_of(names)]
