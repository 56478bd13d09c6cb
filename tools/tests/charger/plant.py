"""Four cells of a pack: they charge by the current, one of them faster, and warm."""


class Plant:
    def __init__(self):
        self.cells, self.heat, self.tick = [2980.0, 3010.0, 2985.0, 2970.0], 250.0, 0

    def inputs(self):
        self.tick += 1
        if self.tick > 1500:
            return None
        names = zip("abcd", map(int, self.cells))
        return {"plugged": 5 <= self.tick < 1450, **dict(names), "heat": int(self.heat)}

    def outputs(self, phase, current, shunts, faults, seconds):
        for at in range(4):
            shunted = 60 if shunts >> at & 1 else 0
            self.cells[at] += max(0, current - shunted) * (0.0026 if at == 1 else 0.0025)
        self.heat += current * 0.0009 - (self.heat - 250) * 0.006
