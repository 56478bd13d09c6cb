"""A C text as a unit around it needs it: its structs, ports and counters, and names that clash with none of its words."""
import hashlib
import re

from cells import counters_of
from shared import Fault, ports_of, read, structs_of

# words that name no parameter in C, in C++, or behind the headers that the unit includes
TAKEN = set("""
auto break case char const continue default do double else enum extern float for goto if inline int long register restrict return short signed
sizeof static struct switch typedef union unsigned void volatile while asm typeof alignas alignof and and_eq bitand bitor bool catch class
compl concept const_cast consteval constexpr constinit co_await co_return co_yield decltype delete dynamic_cast explicit export false friend
mutable namespace new noexcept not not_eq nullptr operator or or_eq private protected public reinterpret_cast requires static_assert static_cast
template this thread_local throw true try typeid typename using virtual wchar_t xor xor_eq NULL abort setjmp longjmp jmp_buf offsetof size_t
ssize_t ptrdiff_t max_align_t errno stdin stdout stderr assert unix linux i386 near far interrupt RAND_MAX EXIT_SUCCESS EXIT_FAILURE MB_CUR_MAX
div_t ldiv_t lldiv_t alloca
""".split())
TAKEN_FORMS = re.compile(r"_[A-Z_]\w*|bl_\w*|BL_\w*|u?int\w*_t|U?INT\w*")
# names of the unit that aren't behind NAME
OWN = ("unit", "tick_begun", "tick", "put", "get", "signed_of", "front", "sum_of", "trap_line")
SIGNED = re.compile(r"int(8|16|32|64)_t")
SCALAR = re.compile(r"u?int(8|16|32|64)_t")
# how many bytes of the text's SHA-256 are its number
NUMBER = 8


class Text:
    """A C text: its structs by name, in order, its ports, each with its name and its type, its words, its counters, and its number."""

    def __init__(self, path):
        data = read(path)
        text = data.decode("latin-1")
        self.path, self.structs, self.words = path, structs_of(path, text), set(re.findall(r"\w+", text))
        self.inputs, self.outputs = ports_of(self.structs, "bl_in"), ports_of(self.structs, "bl_out")
        self.prelude, self.body = split(text)
        self.counters = counters_of(self.structs, text)
        self.number = hashlib.sha256(data).digest()[:NUMBER]

    def sizes(self):
        """For each struct the number of its cells and of their bytes."""
        found = {}
        for name, members in self.structs.items():
            cells = size = 0
            for it in members:
                one = found.get(it.type) or (1, width_of(it.type))
                cells, size = cells + one[0] * (it.length or 1), size + one[1] * (it.length or 1)
            found[name] = (cells, size)
        return found


def split(text):
    """The prelude of a text, and what stands behind it."""
    at = text.index("\nstruct ") + 1
    return text[:at], text[at:]


def width_of(kind):
    """How many bytes a scalar type has in a saved state."""
    found = re.search(r"\d+", kind)
    return int(found.group()) // 8 if found else 1


def is_scalar(member):
    """Whether a member is a scalar, or an array of such: the other types are structs, which have names of their own."""
    return member.type == "bool" or bool(SCALAR.fullmatch(member.type))


def range_of(kind):
    """The least and the greatest number of a whole-number type."""
    width = 8 * width_of(kind)
    return (-(1 << width - 1), (1 << width - 1) - 1) if SIGNED.fullmatch(kind) else (0, (1 << width) - 1)


def free_name(name, taken):
    """A name as it is, or with `p_` in front where it is of a form that is taken, and with as many `_` behind as make it free."""
    name = f"p_{name}" if TAKEN_FORMS.fullmatch(name) else name
    while name in taken or name in TAKEN:
        name += "_"
    return name


class Names:
    """The names of a unit: those of all, of the parameters and of the outputs' functions, each port's by its own."""

    def __init__(self, name, text):
        self.name, self.capital = name, name.upper()
        self.taken = {f"{name}_{it}" for it in ("reset", "step", "trap", "trap_line", "save", "restore", "test", "run", "bl_init", "bl_tick", "unit", "row")}
        self.taken |= {f"{self.capital}_{it}" for it in ("GOES_ON", "ENDED", "TRAPPED", "SAVED", "BLECHC", "UNIT_H", "TEST_H")}
        self.clash(text)
        self.parameters = self.named(text.inputs, "", set(OWN))
        self.outputs = self.named(text.outputs, f"{name}_", self.taken | text.words)

    def clash(self, text):
        """Refuses a name whose functions the text has already."""
        both = sorted(self.taken & text.words)
        if both:
            raise Fault(f"{text.path}: it has `{both[0]}` already, so the unit needs another NAME than {self.name}")

    @staticmethod
    def named(ports, prefix, taken):
        """A free name for each port; one whose name may stand keeps it."""
        plain = {prefix + name for name, _ in ports}
        found = {}
        for name, _ in ports:
            wanted = prefix + name
            found[name] = free_name(wanted, taken | set(found.values()) | (plain - {wanted}))
        return found
