"""The self-test of headline.py: changes that it must notice, each made alone, in memory."""
import sys

import headline_source as sources

RECORDING = "crates/report_runs/src/recording.rt"
WORDS = "crates/report_runs/src/words.rt"
FREE = "crates/search_modules/src/race_free.rt"
ALL = "crates/search_modules/src/all.rt"
LIVENESS = "crates/search_modules/specs/Liveness.antt"
RACES = "crates/search_modules/specs/Races.antt"
REDUCED = "crates/search_race_free/specs/Reduced.antt"
RECORDED = "crates/replay/specs/Recorded.antt"
RUN_ENDS = "crates/spawn_host/specs/RunEnds.antt"
CALLED = "crates/report_runs/specs/Called.antt"
PAGE = "docs/HEADLINE.md"

FOUND = """    ensures found { IfOk result
        (λ r. AreListed (race_free_claims_of request.now allowed.now dump) plan.now.most (F.wish follower.new) r.ended) }
"""
LIVE = """    ensures live { IfOk result
        (λ r. SaysWhereAllFree request.now allowed.now dump r.ended.states r.ended.verdict r.ended.liveness) }
"""
CALL = """    requires fuel { call.fuel ≤ MOST_FUEL }
"""
END = """    ensures end { IfOk result (EndsCallOnWords «module».now.parts call.entry) }
"""

# What is changed, where, from what to what, and a word of what has to be told: nothing where that is empty.
TRIES = [
    ("record_run requires more", RECORDING, CALL, CALL + "    requires { limit ≡ 7 }\n", "`record_run`"),
    ("record_run requires less fuel", RECORDING, "{ call.fuel ≤ MOST_FUEL }", "{ call.fuel ≤ 1000 }", "`record_run`"),
    ("record_run says nothing", RECORDING, CALL + "    ensures record {", CALL + "    ensures other {",
     "no clause record"),
    ("run_on_words requires something", WORDS, END, "    requires { call.fuel ≡ 0 }\n" + END, "`run_on_words`"),
    ("run_on_words says nothing", WORDS, END, "", "no clause end"),
    ("all_endings says less of endings", ALL, "AreListed (claims_of request.now dump)",
     "Are (claims_of request.now dump)", "`all_endings`"),
    ("race_free_endings says nothing of endings", FREE, FOUND, "    ensures found { IfOk result (λ r. Unit {0}) }\n",
     "`race_free_endings`"),
    ("race_free_endings has no clause of endings", FREE, FOUND, "", "no clause found"),
    ("race_free_endings says nothing of what is live", FREE, LIVE, "    ensures live { IfOk result (λ r. Unit {0}) }\n",
     "`race_free_endings`"),
    ("race_free_endings has no clause of what is live", FREE, LIVE, "", "no clause live"),
    ("no race under one more premise", FREE, "verdicts.All\n        → NeverRaces",
     "verdicts.All → ⊥\n        → NeverRaces", "clause `none`"),
    ("a clause by another import", FREE, "Liveness.{CountsOwned, SaysWhereAllFree}",
     "Liveness.{CountsOwned, SaysWhereAll as SaysWhereAllFree}", "`race_free_endings`"),
    ("the claims of race_free_endings are no claims", RACES,
     "  complete = HasEveryEnding r.parts r.name r.args dump;", "  complete = λ l. Unit {0};", "`race_free_claims_of`"),
    ("what is live is said of nothing", LIVENESS,
     "SaysWhereAllFree r allowed = SaysWhereAllBy is_same_owned (RestsPlainly allowed) r",
     "SaysWhereAllFree r allowed dump states verdict o = Unit {0}", "`SaysWhereAllFree`"),
    ("states with what is owned stand for none", LIVENESS, "RestsPlainly allowed s c w = (turns",
     "RestsPlainly allowed s c w = ⊥ × (turns", "`RestsPlainly`"),
    ("a state stands for fewer", REDUCED, "    pub kept : IsKept s\n", "    pub kept : IsKept s\n    pub none : ⊥\n",
     "`StandsBefore`"),
    ("what is said of states is under a premise", LIVENESS, "    pub every : l.endless",
     "    pub every : ⊥ → l.endless", "`SaysBy`"),
    ("the module of definitions takes a premise", LIVENESS, "→ State Shared Thread → Type 0) where",
     "→ State Shared Thread → Type 0) (never : ⊥) where", "`SaysBy`"),
    ("a premise before EndsRun, of a record", RECORDED, "pub ends_run : EndsRun m",
     "pub ends_run : limit ≡ 7 → EndsRun m", "`RecordsRun`"),
    ("a premise before EndsRun, on words", RUN_ENDS,
     "(history : List Entry) × EndsRun m entry args fuel true None history end",
     "(history : List Entry) × (fuel ≡ 7 → EndsRun m entry args fuel true None history end)", "`EndsRunOnWords`"),
    ("a field of EndsRun is left out", RUN_ENDS,
     "  pub bytes_after : end.bytes.items ≡ (memory_after (opening_memory m) history).bytes\n", "", "RunEnds.antt"),
    ("a call records what another definition says", CALLED, "Recorded.{RecordsRun}",
     "Recorded.{RecordsSome as RecordsRun}", "`RecordsCall`"),
    ("a definition is in no row", PAGE, ", `IsKept`, `StandsBefore` |", ", `IsKept` |", "StandsBefore of"),
    ("a library that nobody names", "crates.txt", "\nreport_runs: ", "\nreport_runs: strange_library ",
     "strange_library"),
    ("a comment is another one", RUN_ENDS, "-- The threads ran together", "-- All threads ran together", ""),
    ("a line is wrapped", RECORDED, "RecordParts)\n    (end", "RecordParts) (end", ""),
]


def told(page_of, path, old, new, files):
    """What is wrong with a change made, or none where its place isn't found once."""
    text = sources.text_at(path)
    if text is None or text.count(old) != 1:
        return None
    sources.kept[path] = text.replace(old, new)
    try:
        page = page_of({it: file for it, file in files.items() if it != path})
        page.check()
    finally:
        sources.kept[path] = text
    return page.wrong


def main(page_of):
    """Tries each change over the page as it stands, which is right. Returns 1 where one isn't noticed."""
    page = page_of()
    page.check()
    missed = ["the page is wrong as it stands"] if page.wrong else []
    for what, path, old, new, word in TRIES:
        wrong = told(page_of, path, old, new, page.files)
        if wrong is None:
            missed.append("%s: what it changes doesn't stand once in %s; mend bench/headline_tries.py" % (what, path))
        elif word and not any(word in it for it in wrong):
            missed.append("%s: it isn't noticed" % what)
        elif not word and wrong:
            missed.append("%s: it shouldn't matter" % what)
    for it in missed:
        print("bench/headline.py --self-test: %s" % it, file=sys.stderr)
    return 1 if missed else 0
