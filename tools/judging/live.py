"""The judge between a client and its server: what the proxy of tools/faults hands on goes to the judge, with no fault or those of a plan."""
import asyncio
import time

import nfs4
from breaking.plan import Plan
from breaking.proxy import MOST_RECORD, Between


class Live:
    """Gives a judge what clients sent and were sent. A place is the number of a record."""

    def __init__(self, judge):
        self.judge, self.begun, self.count, self.streams = judge, time.monotonic(), 0, {}

    def seen(self, connection, from_server, data):
        moment = time.monotonic() - self.begun
        if data is None:
            self.judge.ended(moment, connection.number, self.count)
            self.streams = {key: records for key, records in self.streams.items() if key[0] != connection.number}
            return
        for record in self.streams.setdefault((connection.number, from_server), nfs4.Records(MOST_RECORD)).feed(data):
            self.count += 1
            self.judge.record(moment, connection.number, not from_server, record, self.count)


def judge_live(judge, listen, server, plan, seconds):
    """Serves until it is stopped, by ctrl-C or after so many seconds; faults are told as they are done."""
    live = Live(judge)
    between = Between(listen, [server], plan or Plan([]), lambda line: print(line, flush=True), live.seen)
    asyncio.run(between.run_until_stopped("judge", seconds))
    judge.finish()
