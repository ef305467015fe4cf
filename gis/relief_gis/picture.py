"""The picture of a line of sight, where matplotlib is installed."""
from __future__ import annotations

from typing import TYPE_CHECKING, Callable

if TYPE_CHECKING:
    from .profiles import Line, Profile

INCHES = (9, 4)


def draw_profile(name: Callable[[], str], profile: Profile, line: Line) -> bool:
    """Draws the ground and the line of sight over the distance as a PNG; False: there is no matplotlib.

    Args:
        name: gives the name of the file, and is called where there is one.
    """
    try:
        from matplotlib.backends.backend_agg import FigureCanvasAgg
        from matplotlib.figure import Figure
    except ImportError:
        return False
    distances = [float(along) * line.length for along in profile.along]
    ground = [float("nan") if height is None else float(height) for height in profile.ground]
    figure = Figure(figsize=INCHES, layout="constrained")
    axes = figure.add_subplot(xlabel="distance", ylabel="height", xlim=(0, line.length))
    axes.fill_between(distances, ground, min(filter(_is_number, ground)), color="0.75")
    axes.plot(distances, ground, color="0.35", label="ground")
    axes.plot(distances, list(map(float, profile.line)), color="tab:blue" if profile.is_seen else "tab:red",
              label="line of sight: " + ("seen" if profile.is_seen else "hidden"))
    if profile.worst is not None:
        axes.axvline(float(profile.worst.along) * line.length, color="0.5", linestyle=":")
    axes.legend()
    FigureCanvasAgg(figure).print_png(name())
    return True


def _is_number(height: float) -> bool:
    return height == height
