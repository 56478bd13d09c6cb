"""Time that this process and the solvers have worked: on a machine with other work answers are the same, and come later."""
import os


def worked():
    """Seconds of work so far."""
    return sum(os.times()[:4])
