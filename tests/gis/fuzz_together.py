"""Random words of `maps`, and what the judge says of each of its maps by itself."""
import types

import fuzz_compare
import fuzz_words
import judge_together

NAMES = judge_together.NAMES


class Case(fuzz_words.Case):
    """A raster in a folder, and the words of a command that makes several maps of it."""

    def draw_words(self):
        """The words of the command: options of its maps, rarely of others."""
        names = self.chance.sample(NAMES, self.chance.choice((1, 2, 2, 3, 4, len(NAMES))))
        self.map, self.options, self.written = "maps", [], []
        self.outputs = {name: self.folder / f"{name}.tif" for name in names}
        self.draw_reading()
        for name, draw, is_drawn in (("streams", self.draw_threshold, not self.is_rare(20)),
                                     ("basins", self.draw_least, self.is_rare(3)),
                                     ("catchments", self.draw_gauges, not self.is_rare(20))):
            if is_drawn if name in names else self.is_rare(60):
                draw()
        if not any(word.startswith("--sink") for word in self.options) and self.is_rare(3):
            self.draw_points("--sink-at", "--sinks")
        if self.is_rare(20):
            self.options += ["--skip"]
        if self.is_rare(5):
            self.draw_uncertain()
        self.draw_running()

    def draw_output(self):
        """Where the maps are written: mostly new files, rarely an older map, the raster, or one file twice."""
        for name in self.outputs:
            self.output = self.outputs[name]
            if self.is_rare(6):
                self.write_old_map()
            if self.is_rare(100):
                self.outputs[name] = self.chance.choice([self.path, *self.outputs.values()])

    def joined_words(self):
        """The words of the command: the maps behind or before the options."""
        maps = [word for name, path in self.outputs.items() for word in (f"--{name}", str(path))]
        return ["maps", str(self.source), *self.chance.choice((maps + self.options, self.options + maps))]

    @property
    def targets(self):
        """The maps that are written."""
        return list(self.outputs.values())


def difference(case, verdicts, lines):
    """How what was written differs from the judge's maps; none where nothing does."""
    for name, (words, scene, maps) in verdicts.items():
        one = types.SimpleNamespace(map=name, output=case.outputs[name], options=words[3:])
        found = fuzz_compare.difference(one, scene, maps, lines)
        if found:
            return f"{name}: {found}"
    return ""
