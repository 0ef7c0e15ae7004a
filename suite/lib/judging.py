"""What of a report is new, what is known, and the status that follows."""
from baseline import Baseline
from faults import NEW, Fault


class Judged:
    """The causes of a report that fail it, parted by a baseline."""

    def __init__(self, report, options, words):
        self.report = report
        self.words = words  # the command that made the report
        self.fail_on = options.fail_on
        self.baseline = self.read_baseline(options.baseline)
        self.failing = sorted((cause for cause in report.causes.values() if cause.kind in self.fail_on), key=lambda cause: cause.order)
        self.added = 0
        self.part()
        if options.update_baseline and self.baseline.path and self.new:
            self.added = len(self.new)
            self.baseline.add(self.new)
            self.part()

    def read_baseline(self, path):
        """The baseline; where it is refused, that is a fault of the report, and nothing is known."""
        try:
            return Baseline(path)
        except Fault as fault:
            self.report.faults.append([fault.status, str(fault)])
            return Baseline(None)

    def part(self):
        reasons = [(cause, self.baseline.why(cause)) for cause in self.failing]
        self.new = [cause for cause, why in reasons if why is None]
        self.known = [(cause, why) for cause, why in reasons if why is not None]

    @property
    def status(self):
        """The greatest of those that apply."""
        return max([NEW if self.new else 0, *(status for status, _ in self.report.all_faults)])
