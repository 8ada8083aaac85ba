"""Better claims from exported ones: a lower bound by the linear relaxation, a better plan by integer programs."""

from purvelj.tighten.run import NotCertified, Step, Tightened, tighten

__all__ = ["NotCertified", "Step", "Tightened", "tighten"]
