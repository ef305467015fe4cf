"""The package `relief_gis`: that of the system, or the one that the plugin's archive brings."""
try:
    from relief_gis import (arguments, comparison, curvature, differences, edges, errors, foreign, gdal_errors, job,
                            points, profiles, program, styles, targets, typed, units, words)
except ImportError:
    from .relief_gis import (arguments, comparison, curvature, differences, edges, errors, foreign, gdal_errors, job,
                             points, profiles, program, styles, targets, typed, units, words)

__all__ = ["arguments", "comparison", "curvature", "differences", "edges", "errors", "foreign", "gdal_errors", "job",
           "points", "profiles", "program", "styles", "targets", "typed", "units", "words"]
