#!/usr/bin/env python3
"""What must come of crates/save_readings/stdin, from the page on saves alone: two lists, of the
saves that wait and of those that the put under way is for, in place of one list.

    tests/model/saves.py < crates/save_readings/stdin > crates/save_readings/stdout
"""
import sys

MOST_SAVES = 64


class Document:
    def __init__(self):
        self.asked = 0
        self.waiting = []  # (order, view, mark, skip, token)
        self.bound = []
        self.put = None  # (ticket, file, content, number)
        self.sent = None  # the last put that began
        self.last = 0
        self.ticket = 1
        self.token = None
        self.room = False

    def unanswered(self):
        return self.waiting + self.bound

    def add(self, view, mark, skip, token):
        self.waiting.append((self.asked, view, mark, skip, token))
        self.asked += 1

    def ready(self, applied):
        return self.put is None and any(save[2] <= applied for save in self.waiting)

    def wait(self, view, mark, skip, token=""):
        if not token:
            return ["no token"]
        if view != "-" and sum(save[1] == view for save in self.unanswered()) >= MOST_SAVES:
            return ["too many"]
        self.add(view, int(mark), skip == "skip", token)
        return ["waits"]

    def start(self, applied, file, content=""):
        applied = int(applied)
        if not self.ready(applied):
            return ["not ready"]
        ready = [save for save in self.waiting if save[2] <= applied]
        self.waiting = [save for save in self.waiting if save[2] > applied]
        nothing_new = applied == self.last
        done = [save[1] for save in ready if save[3] and nothing_new and save[1] != "-"]
        self.bound = [save for save in ready if not (save[3] and nothing_new)]
        line = "no put"
        if self.bound:
            self.put = self.sent = (self.ticket, file, content, applied)
            self.ticket += 1
            line = f"put {self.put[0]} of {file} with {self.bound[0][4]}: {content}, {applied}"
        return [line + "".join(f"; unmodified {view}" for view in done)]

    def answer(self, ticket, kind):
        if self.sent is None:
            sent_file, sent_content = None, ""
        else:
            sent_file, sent_content = self.sent[1:3]
        file = "other" if kind == "other-file" else sent_file
        content = "other" if kind == "other-content" else sent_content
        stored = kind != "failed" and file is not None
        if self.put is None or int(ticket) != self.put[0]:
            return ["answers nobody"]
        if stored and (file, content) != self.put[1:3]:
            return ["answers nobody"]
        number = self.put[3]
        lines = []
        for save in self.bound:
            who = "no view" if save[1] == "-" else f"view {save[1]}"
            lines.append(f"{who}: {number} {'stored' if stored else 'failed'}")
        if stored:
            self.last = number
        self.bound, self.put, self.room = [], None, self.token is not None
        return lines

    def keep(self, token=""):
        if not token:
            return ["no token"]
        self.token, self.room = token, True
        return ["kept"]

    def final(self, mark):
        if not self.room:
            return ["no room"]
        self.add("-", int(mark), False, self.token)
        self.room = False
        return ["waits"]

    def see(self, number):
        number = int(number)
        marked = any(save[2] == number for save in self.unanswered())
        return [f"ready {word(self.ready(number))}, mark {word(marked)}"]

    def tell(self):
        put, empty = word(self.put is not None), word(not self.unanswered())
        return [f"stored {self.last}, put {put}, empty {empty}"]

    end = tell


def word(truth):
    return "true" if truth else "false"


def main():
    document = Document()
    for line in sys.stdin.read().splitlines():
        act, *words = line.split(" ")
        if line.startswith("#"):
            print(line)
        elif act == "begin":
            document = Document()
        else:
            print("\n".join(getattr(document, act)(*words)))


main()
