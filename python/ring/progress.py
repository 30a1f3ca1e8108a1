"""What goes on, said on standard error where it takes longer than a second."""
import sys
import threading
import time

# seconds before the first word, between two of them, and between two looks at the clock
FIRST, BETWEEN, LOOK = 1.0, 2.0, 0.2


class Progress:
    """Says now and then how far it is, while something goes on, be it one long call or many: `told` gives the words, from what is at hand, and asks no call. On a
    terminal the line is written over."""

    def __init__(self, told=None, out=None, clock=time.monotonic):
        self.told, self.out, self.clock = told or (lambda: "still working"), out or sys.stderr, clock
        self.begun, self.last = clock(), None
        self.done, self.lock = threading.Event(), threading.Lock()
        self.thread = threading.Thread(target=self.watch, daemon=True)

    def __enter__(self):
        self.thread.start()
        return self

    def __exit__(self, *_):
        self.done.set()
        self.thread.join()
        if self.last is not None and self.out.isatty():
            print(file=self.out, flush=True)

    def tell(self, what):
        """These are the words from now on."""
        self.told = lambda: what
        self.say()

    def watch(self):
        while not self.done.wait(LOOK):
            self.say()

    def say(self):
        """A word, where it is time for one."""
        with self.lock:
            now = self.clock()
            if now - self.begun < FIRST or self.last is not None and now - self.last < BETWEEN:
                return
            self.last, over = now, self.out.isatty()
            text = "%sring: %s, %d seconds so far" % ("\r\033[K" if over else "", self.told(), now - self.begun)
            print(text, file=self.out, end="" if over else "\n", flush=True)
