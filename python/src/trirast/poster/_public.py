"""The names that the package gives, which import numpy."""

from .._polygons import Polygons
from ._arrays import save_arrays, save_polygons, scene_of, scene_of_arrays, scene_of_polygons
from ._draw_list import scene_of_list
from ._errors import (
    ArraysError,
    BusyError,
    EngineMissingError,
    GuardBandError,
    MapError,
    OutputError,
    PosterError,
    ResumeError,
    SchedulerLostError,
    ThreadError,
    WorkerLostError,
)
from ._geojson import scene_of_geojson
from ._poster import draw_poster
from ._scene import PosterDraw, Scene, Sheet

__all__ = [
    "ArraysError", "BusyError", "EngineMissingError", "GuardBandError", "MapError", "OutputError", "Polygons",
    "PosterDraw", "PosterError", "ResumeError", "Scene", "SchedulerLostError", "Sheet", "ThreadError",
    "WorkerLostError", "draw_poster", "save_arrays", "save_polygons", "scene_of", "scene_of_arrays", "scene_of_geojson",
    "scene_of_list", "scene_of_polygons",
]
