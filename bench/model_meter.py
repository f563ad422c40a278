"""The meters of RFC 2697 (srTCM), RFC 2698 (trTCM) and RFC 4115 once more, slowly and plainly.

A `Meter` is made of its plan, as `model_profile` gives it. Moments are in nanoseconds since the origin, and lengths in bytes,
without link header and tags.
"""

from model_profile import COLOURS


class Meter:
    """A meter with its two buckets, which start full: `committed`, and the excess or peak bucket, `other`."""

    def __init__(self, plan):
        self.name, self.kind, self.is_aware, self.drops = plan["name"], plan["kind"], plan["aware"], plan["drops"]
        self.rate, self.other_rate = plan["cir"], plan["other rate"]
        self.size, self.other_size = plan["cbs"], plan["other size"]
        self.committed, self.other, self.latest = self.size, self.other_size, 0
        self.counts = dict.fromkeys(COLOURS, 0)

    def mark(self, moment, length, precolour):
        """The colour of a packet, and whether packets of that colour are dropped."""
        if moment > self.latest:
            self.earn(moment)
            self.latest = moment
        colour = self.reply(length, precolour if self.is_aware else "green")
        self.counts[colour] += 1
        return colour, colour in self.drops

    def earn(self, moment):
        """Fills the buckets with what comes after the latest moment and up to this one."""
        tokens = self.earned(self.rate, moment)
        over = max(0, self.committed + tokens - self.size)
        self.committed += tokens - over
        more = over if self.kind == "srtcm" else self.earned(self.other_rate, moment)
        self.other = min(self.other_size, self.other + more)

    def earned(self, rate, moment):
        """A rate's bytes come at the multiples of its period, counted from the origin."""
        size, period = rate
        return size * (moment // period - self.latest // period)

    def reply(self, length, precolour):
        """The colour by the tokens that are there, which pay for it."""
        return self.two_rates(length, precolour) if self.kind == "trtcm" else self.one_bucket(length, precolour)

    def two_rates(self, length, precolour):
        """RFC 2698: the peak bucket has to pay for any packet that isn't red, and the committed one for a green one too."""
        if precolour == "red" or self.other < length:
            return "red"
        self.other -= length
        if precolour == "yellow" or self.committed < length:
            return "yellow"
        self.committed -= length
        return "green"

    def one_bucket(self, length, precolour):
        """RFC 2697 and RFC 4115: the committed bucket pays for a green packet, the excess one for a yellow one."""
        if precolour == "green" and self.committed >= length:
            self.committed -= length
            return "green"
        if precolour != "red" and self.other >= length:
            self.other -= length
            return "yellow"
        return "red"
