"""Runs an algorithm within QGIS and prints what its feedback was told: PLUGINS ALGORITHM PARAMETERS [cancel].

PARAMETERS is JSON. With `cancel` the run is cancelled a second after it began. Prints a line for each text of the
progress, with the shares in percent that followed it, and how the run ended.
"""
import json
import sys
import threading

from qgis.core import QgsApplication, QgsProcessingContext, QgsProcessingFeedback

plugins, name, parameters, *words = sys.argv[1:]
sys.path.insert(0, plugins)
application = QgsApplication([], False)
application.initQgis()
from relief.provider import ReliefProvider  # noqa: E402 (QGIS comes first)


class Feedback(QgsProcessingFeedback):
    """Keeps what it is told."""

    def __init__(self):
        super().__init__(False)
        self.told = [["begin"]]
        self.progressChanged.connect(lambda share: self.told[-1].append(round(share)))

    def setProgressText(self, text):  # noqa: N802
        self.told.append([text])


provider = ReliefProvider()
QgsApplication.processingRegistry().addProvider(provider)
algorithm = QgsApplication.processingRegistry().algorithmById(f"relief:{name}")
feedback = Feedback()
if words == ["cancel"]:
    threading.Timer(1, feedback.cancel).start()
found, worked = algorithm.run(json.loads(parameters), QgsProcessingContext(), feedback)
for text, *shares in feedback.told:
    print(f"{text}:", *shares)
print("cancelled" if feedback.isCanceled() else "done" if worked else "failed")
application.exitQgis()
