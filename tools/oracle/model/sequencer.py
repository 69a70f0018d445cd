"""The sequencer: frames, play and step."""

from .base import INT_MAX, INT_MIN, MAX_STEPS


class Sequencer:
    """The frames and the way of the sequencer; `next` is without bounds."""

    def __init__(self):
        self.start, self.last, self.delta, self.next, self.frame = 1, 100, 1, 1, 1
        self.direction, self.loop, self.palindrome = 1, False, False

    def frames(self):
        """The frame variables as they read."""
        return {b"startframe": self.start, b"endframe": self.last, b"deltaframe": self.delta,
                b"nextframe": min(INT_MAX, max(INT_MIN, self.next)), b"frame": self.frame}

    def set(self, variable, number):
        """Sets a frame variable; False where it is refused."""
        if variable == b"deltaframe" and number < 1:
            return False
        name = {b"startframe": "start", b"endframe": "last", b"deltaframe": "delta", b"nextframe": "next",
                b"frame": "frame"}[variable]
        setattr(self, name, number)
        return True

    def first(self):
        """The first frame of the pass."""
        return self.start if self.direction > 0 else self.last

    def inside(self, frame):
        """Whether a frame is inside."""
        return self.start <= frame <= self.last

    def step(self):
        """One step: True where it has a frame."""
        if not self.inside(self.next):
            if not self.loop or self.start > self.last:
                self.next = self.first()
                return False
            if not self.palindrome:
                self.next = self.first()
            else:
                self.direction = -self.direction
                turned = self.frame + self.delta * self.direction
                self.next = turned if self.inside(turned) else self.first()
        self.frame = self.next
        self.next += self.delta * self.direction
        return True

    def begin_play(self):
        """The number of steps of a play, or None where they are too many."""
        begin = self.next if self.inside(self.next) else self.first()
        if self.start > self.last:
            steps = 0
        elif self.direction > 0:
            steps = (self.last - begin) // self.delta + 1
        else:
            steps = (begin - self.start) // self.delta + 1
        if steps > MAX_STEPS:
            return None
        self.next = begin
        return steps

    def word(self, word):
        """Every word but play and step."""
        if word == b"stop":
            self.next = self.first()
        elif word in (b"forward", b"backward"):
            self.direction = 1 if word == b"forward" else -1
        else:
            name, state = word.decode().split()
            setattr(self, name, state == "on")
