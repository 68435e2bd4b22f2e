"""The games of the line mode, and of these what those play who have another front."""

from pathlib import Path

from tests.harness.played import transcripts

FOLDER = Path(__file__).with_name('lines')

#: Games in one folder: later runs load what the first one saved.
SAVES = [case.values[0] for case in transcripts(FOLDER) if case.id.startswith('files: ')]
