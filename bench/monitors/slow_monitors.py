#!/usr/bin/env python3
"""The machine with monitors, as a slow program that was written from the JVM Specification and the rules below, over the slow machine
of bench/random.

    bench/monitors/slow_monitors.py PLAN CLASSFILE..
    bench/monitors/slow_monitors.py FOLDER

Prints what `jcov run --monitors` prints, as slow_machine.py does it for `jcov run`. The rules:

- A lock is that of an array or a throwable, or that of a class. It is held by one thread, with a count above 0.
- `monitorenter` takes the lock of the object on top, or adds one to its count; where another thread holds it the turn is idle.
  `monitorexit` takes one from the count of a lock that the thread holds, and at 0 the lock is free. Null raises NullPointerException.
- A call of a synchronized method, which nothing else keeps out of the profile, takes the lock of the method's class, where another
  thread holds it the turn is idle; else 128 frames raise StackOverflowError, and no lock is taken.
- A frame of a synchronized method that is left, by a return or a throw, gives its lock back. Those of a stuck thread stay, and so do
  the locks of objects that an ended thread holds.
- A thread is stuck at what would make the 4,097th held lock, at `monitorexit` of what it doesn't hold, and at a value that is no
  object of the heap.
"""
import os
import sys

HERE = os.path.dirname(os.path.abspath(__file__))
sys.path[:0] = [os.path.join(HERE, "..", "lib"), os.path.join(HERE, "..", "random")]

import slow_machine
from slow_machine import MOST_FRAMES, Array, Raised, Stuck, Throwable
from slow_programs import INIT

MOST_LOCKS, MOST_TIMES = 4_096, 2**64 - 1


class Waits(Exception):
    """Another thread holds the lock: the turn is idle."""


class MonitorWorld(slow_machine.World):
    """The world of a case. `held` has for each lock the thread that holds it and its count, and `entered` for each thread the depths
    and classes of its frames of synchronized methods, the lowest first. `turning` is the thread whose turn it is, and `waiting` has
    those whose turns were idle since another turn changed anything."""

    def __init__(self, program, case):
        super().__init__(program, case)
        self.held, self.entered, self.turning = {}, [[] for _ in case.threads], None
        self.idle_turns, self.waiting = 0, set()

    def turn(self, number):
        if self.threads[number].end is not None:
            return
        self.turning = number
        try:
            super().turn(number)
        except Waits:
            self.idle_turns += 1
            self.waiting.add(number)
            return
        self.waiting.clear()
        self.leave_frames(number)

    def leave_frames(self, number):
        """Frames of synchronized methods that are there no longer give their locks back."""
        thread, entered = self.threads[number], self.entered[number]
        if thread.end == "stuck":
            return
        depth = self.depth(thread)
        while entered and entered[-1][0] > depth:
            self.give(("class", entered.pop()[1]))

    def locks(self):
        return list(self.held.items()), self.entered

    # -- locks

    def may_take(self, lock):
        """Waits for a lock that another thread holds; the thread is stuck where one more can't be held, or not once more."""
        if lock in self.held:
            if self.held[lock][0] != self.turning:
                raise Waits
            if self.held[lock][1] >= MOST_TIMES:
                raise Stuck
        elif len(self.held) >= MOST_LOCKS:
            raise Stuck

    def take(self, lock):
        self.held[lock] = (self.turning, self.held.get(lock, (self.turning, 0))[1] + 1)

    def give(self, lock):
        thread, count = self.held[lock]
        if count == 1:
            del self.held[lock]
        else:
            self.held[lock] = (thread, count - 1)

    # -- instructions

    def execute(self, thread, frame, insn):
        if insn[0] in ("monitorenter", "monitorexit"):
            return self.monitor(frame, insn[0])
        return super().execute(thread, frame, insn)

    def monitor(self, frame, name):
        top = frame.stack[-1]
        if top is None:
            raise Raised("NullPointerException")
        if not isinstance(top, (Array, Throwable)) or top is self.memory_error:
            raise Stuck
        lock = ("object", top.number)
        if name == "monitorenter":
            self.may_take(lock)
            self.take(lock)
        elif self.held.get(lock, (None, 0))[0] == self.turning:
            self.give(lock)
        else:
            raise Stuck
        frame.stack.pop()
        self.go(frame)

    def locked_callee(self, frame, member):
        """The method that is called, where nothing but that it is synchronized keeps it out of the profile."""
        owner, name, desc = member
        number = self.program.numbers.get(owner)
        linked = None if number is None else self.program.classes[number]
        place = None if linked is None else linked.body(name, desc)
        if INIT in (frame.body.name, name) or place is None or linked.has_clinit:
            return None
        body = linked.bodies[place]
        fits = body.max_locals + body.max_stack <= linked.slots
        return (number, place) if fits and body.flags & 0x128 == 0x28 else None

    def call(self, thread, frame, member, stack):
        callee = self.locked_callee(frame, member)
        if callee is None:
            return super().call(thread, frame, member, stack)
        lock = ("class", callee[0])
        if lock in self.held and self.held[lock][0] != self.turning:
            raise Waits
        if self.depth(thread) >= MOST_FRAMES:
            raise Raised("StackOverflowError")
        self.may_take(lock)
        self.enter(thread, callee, stack)
        self.take(lock)
        self.entered[self.turning].append((self.depth(thread), callee[0]))
        return None


if __name__ == "__main__":
    slow_machine.main(MonitorWorld)
