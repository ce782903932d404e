"""What the live relay does at each status with which a run of the relay ends.

| Status | The run | What the live relay does |
|---|---|---|
| 0 | did all | goes on |
| 1, 13 | found no tape in what it was given | writes the tape anew, and runs again after a pause; after eight such runs in a row it ends with this status |
| 2 | doesn't know its words | ends with 2: the program is another one than this tool is for |
| 3, 4 | could not read its input, or write its output | runs again after a pause |
| 5 | had a call of the disk fail: it is full, its rights changed, or another run holds the folder | keeps what has come, reads no more from hosts once their room is full, serves consumers and queries from memory, and runs again after pauses of 1 second to 1 minute, until the disk is mended |
| 6 | found a line in a table that is none | writes the tables anew, from what it knows, and runs again |
| 7 | could not read a repository | takes the files of repositories away, which are fetched again where they are wanted, and runs again after a pause |
| 10 | found no journal in the files | ends with 10, and touches nothing |
| 11 | found the log full | cuts the older half of the events where a window is set (`window`), and runs again; without one it ends with 11 |
| 12 | gave the last number | ends with 12 |
| 14 | had no memory | runs again with half of the messages; where one message alone needs more memory than there is, it ends with 14 |
| 15 | refused a command | hands the line on to who gave the command |
| 17 | could not read the clock | runs again after a pause |
| 19 | found the port for queries taken | answers the requests that wait with 503, and tries again with the next ones |
| 125 | is the wrapper, and could not build the program | ends with 125 |
| a signal | was killed | runs again after a pause, with half of the messages, since the system may have wanted memory; after eight such runs in a row it ends with 1 |
| another one | is no run that this tool knows | ends with that status |

What was taken by a run that failed is `old` for the next one, so running again with the same messages gives none of them twice.
"""
import enum


class Action(enum.Enum):
    """What follows on a run."""

    GO_ON = "goes on"
    AGAIN = "runs again after a pause, for as long as it takes"
    A_FEW_TIMES = "runs again after a pause, and gives up after some runs in a row"
    MEND_TABLES = "writes the tables anew and runs again"
    DROP_REPOSITORIES = "takes the files of repositories away and runs again"
    MAKE_ROOM = "cuts the journal and runs again"
    SMALLER = "runs again with half of the messages"
    REFUSED = "hands the line on"
    END = "ends"


MOST_IN_A_ROW = 8
BY_STATUS = {
    0: Action.GO_ON, 1: Action.A_FEW_TIMES, 3: Action.AGAIN, 4: Action.AGAIN, 5: Action.AGAIN, 6: Action.MEND_TABLES,
    7: Action.DROP_REPOSITORIES, 11: Action.MAKE_ROOM, 13: Action.A_FEW_TIMES, 14: Action.SMALLER, 15: Action.REFUSED, 17: Action.AGAIN,
}


def action(status: int) -> Action:
    """What follows on a run that ended with a status; a signal is a negative one."""
    return Action.SMALLER if status < 0 else BY_STATUS.get(status, Action.END)
