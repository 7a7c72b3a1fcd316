"""The cases of try-refusals: lines with a first word, and arguments of the program; `<` and a file at the end is standard input.
`files` is program-cases/files."""

from program_runs import FAULTY_KINDS, LAWFUL_KINDS

STORE_BUFFERING = "examples/replay_store_buffering.program examples/replay_store_buffering.schedule"
SWAPS = "examples/two_swaps_both_first.trace"
# The first word is the status without a refusal.
WITH_REFUSED_THREADS = f"""
0 run --unit buffer --seed 1 files/independent_reads.program
0 run --unit buffer --seed 1 --drain-turns 100 files/independent_reads.program
3 judge {SWAPS}
3 judge --workers 2 {SWAPS}
3 judge --workers 4 {SWAPS}
3 judge --workers 7 examples/independent_reads.trace
0 judge --workers 64 made/loads.trace
3 explain --workers 4 {SWAPS}
3 draw --workers 4 {SWAPS}
3 batch --workers 4 files/batch_violation_after_a_refusal.stream
3 batch --violations --workers 4 files/batch_violation_after_a_refusal.stream
0 replay --unit serial --workers 4 examples/replay_serial.program examples/replay_serial.schedule
0 campaign --unit buffer --workers 3 --first 1 --count 6 --procs 2 --ops 8 --addrs 2
0 campaign --unit serial --workers 64 --first 1 --count 2 --procs 1 --ops 20 --addrs 2
0 campaign --replay --unit buffer --workers 3 --first 1 --count 6 --procs 2 --ops 8 --addrs 2
"""
WITH_REFUSED_REQUESTS = "\n".join([
    f"""
0 --help
0 --version
0 judge --help
0 campaign --help
2 judge --workers 0 {SWAPS}
2 replay --unit other {STORE_BUFFERING}
2 judged
3 judge <examples/unwritten_load.trace
0 judge --workers 3 made/loads.trace
2 judge --workers 1 examples/missing_end.trace
2 judge --workers 3 examples/missing_end.trace
3 judge --workers 2 {SWAPS}
3 judge --workers 7 examples/independent_reads.trace
3 judge --workers 1 files/sixty_events_under_pso.trace
3 judge --workers 3 files/sixty_events_under_pso.trace
0 judge files/loads_before_stores_640.trace
3 explain --workers 1 examples/unwritten_load.trace
3 explain --workers 3 examples/store_buffering_with_barriers.trace
3 explain files/sixty_events_under_pso.trace
0 explain files/two_hundred_events.trace
2 explain examples/missing_end.trace
3 draw --workers 1 examples/unwritten_load.trace
3 draw --workers 3 examples/store_buffering_with_barriers.trace
3 draw files/sixty_events_under_pso.trace
3 draw --edges field examples/litmus/S.trace
0 draw files/two_hundred_events.trace
2 draw examples/missing_end.trace
3 reduce examples/store_buffering_with_barriers.trace
3 reduce <examples/unwritten_load.trace
0 reduce files/two_hundred_events.trace
2 reduce examples/missing_end.trace
0 outcomes examples/replay_store_buffering.program
0 outcomes --states files/crossed_stores_pso.program
2 outcomes --limit 1 examples/make_one_operation.program
2 outcomes files/no_end.program
3 outcomes --seen files/seen_store_buffering.stream examples/replay_store_buffering.program
3 batch files/batch_violation_after_a_refusal.stream
3 batch --quiet --workers 3 files/batch_violation_after_a_refusal.stream
3 batch --violations --workers 3 files/batch_violation_after_a_refusal.stream
0 batch --workers 2 files/batch_no_violation.stream
3 log files/log_store_buffering.log
3 log --trace files/log_message_passing.log
3 log --explain files/log_pso_with_stbar.log
3 log --explain files/log_repeated_loads.log
3 log --evidence files/log_message_passing.log
0 log --decide files/log_swap_lock.log
3 log --decide files/log_message_passing.log
3 log --decide files/log_each_reads_another.log
1 log --decide --effort 0 files/log_each_reads_another.log
3 verify --log files/log_message_passing.log files/log_message_passing.evidence
0 verify --log files/log_lock_given_back.log files/log_lock_given_back.order
3 verify --log files/log_each_reads_another.log files/log_each_reads_another.refutation
2 verify --log files/log_unwritten_once.log files/log_message_passing.evidence
3 log --most 2 files/log_unwritten.log
0 log files/log_swap_lock.log
2 log examples/missing_end.trace
3 check examples/certificate_holds.trace examples/certificate_holds.certificate
2 check examples/certificate_less_step_1.trace examples/certificate_less_step_1.certificate
2 check examples/missing_end.trace examples/certificate_holds.certificate
2 check examples/certificate_holds.trace files/rule_misspelt.certificate
3 check examples/unwritten_load.trace files/unwritten_1.certificate
0 decide examples/store_buffering.trace
3 decide --workers 3 examples/inconsistent_without_cycle.trace
3 decide examples/independent_reads.trace
1 decide --effort 1 examples/inconsistent_without_cycle.trace
2 decide examples/missing_end.trace
0 verify examples/store_buffering.trace files/store_buffering.order
3 verify examples/inconsistent_without_cycle.trace files/twelve_events.refutation
2 verify examples/inconsistent_without_cycle.trace files/twelve_events_elsewhere.refutation
2 verify examples/unwritten_load.trace files/nothing
0 replay --trace --unit buffer {STORE_BUFFERING}
0 replay --explain --workers 2 --unit buffer {STORE_BUFFERING}
2 replay --explain --trace --unit buffer {STORE_BUFFERING}
0 replay --unit serial --workers 4 {STORE_BUFFERING}
2 replay --unit buffer files/no_end.program examples/replay_serial.schedule
2 replay --unit buffer examples/replay_serial.program files/processor_16.schedule
0 replay --unit partial examples/replay_partial.program examples/replay_partial.schedule
0 replay --unit buffer examples/replay_first_values.program examples/replay_first_values.schedule
0 replay --unit partial files/pso_first_values.program examples/replay_first_values.schedule
3 replay --unit torn-swap examples/replay_torn_swap.program examples/replay_torn_swap.schedule
0 run --unit buffer --seed 1 examples/replay_forwarded.program
0 run --trace --unit serial --seed 1 examples/replay_forwarded.program
0 run --unit partial --seed 3 files/pso_first_values.program
3 run --unit lost-drain --seed 4 examples/replay_lost_drain.program
0 run --unit buffer --seed 1 files/independent_reads.program
0 run --unit buffer --seed 1 --drain-turns 100 examples/replay_forwarded.program
2 run --unit buffer --seed 1 files/no_end.program
0 campaign --unit buffer --first 1 --count 1 --procs 1 --ops 4 --addrs 1
0 campaign --unit partial --model pso --workers 2 --first 1 --count 2 --procs 2 --ops 4 --addrs 2
0 campaign --replay --unit buffer --workers 2 --first 1 --count 2 --procs 2 --ops 4 --addrs 2
2 campaign --unit serial --first 1 --count 3 --procs 0 --ops 1 --addrs 1
0 make --seed 1 --procs 1 --ops 2 --addrs 1
0 make --model pso --seed 7 --procs 4 --ops 8 --addrs 4
0 make --schedule --seed 1 --procs 2 --ops 2 --addrs 1
2 make --seed 1 --procs 17 --ops 1 --addrs 1
""",
    *(f"{status} judge --workers {workers} {trace}" for workers in (1, 3) for status, trace in [
        (3, "examples/unwritten_load.trace"), (3, "examples/store_buffering_with_barriers.trace"), (3, SWAPS),
        (3, "examples/replay_no_forward.recorded"), (0, "files/two_hundred_events.trace")]),
    *(f"0 replay --unit {kind} {STORE_BUFFERING}" for kind in LAWFUL_KINDS + FAULTY_KINDS)])
# The same with the request and all that come after it refused, in turn: that something is refused is told without memory.
WITH_REFUSED_REST = f"""
0 --help
2 judge --workers 0 {SWAPS}
3 judge --workers 1 files/sixty_events_under_pso.trace
3 judge --workers 3 examples/store_buffering_with_barriers.trace
3 check examples/certificate_holds.trace examples/certificate_holds.certificate
0 replay --unit partial examples/replay_partial.program examples/replay_partial.schedule
0 run --unit buffer --seed 1 files/independent_reads.program
0 campaign --unit buffer --workers 2 --first 1 --count 2 --procs 1 --ops 4 --addrs 1
0 make --seed 1 --procs 1 --ops 2 --addrs 1
"""
# All starts of threads (NoThread), or all requests (OutOfMemory), are refused.
WITH_ALL_REFUSED = f"""
NoThread judge --workers 4 {SWAPS}
NoThread replay --unit serial --workers 4 examples/replay_serial.program examples/replay_serial.schedule
NoThread run --unit buffer --seed 1 examples/replay_serial.program
NoThread campaign --unit buffer --workers 2 --first 1 --count 3 --procs 1 --ops 2 --addrs 1
OutOfMemory --help
OutOfMemory judge {SWAPS}
OutOfMemory explain {SWAPS}
OutOfMemory draw {SWAPS}
OutOfMemory batch files/batch_no_violation.stream
OutOfMemory log files/log_store_buffering.log
OutOfMemory log --decide files/log_message_passing.log
OutOfMemory verify --log files/log_message_passing.log files/log_message_passing.evidence
OutOfMemory check examples/unwritten_load.trace files/unwritten_1.certificate
OutOfMemory replay --unit serial examples/replay_serial.program examples/replay_serial.schedule
OutOfMemory run --unit buffer --seed 1 examples/replay_serial.program
OutOfMemory make --seed 1 --procs 1 --ops 2 --addrs 1
OutOfMemory campaign --unit buffer --first 1 --count 3 --procs 1 --ops 2 --addrs 1
"""
# The starts of threads where none is refused. The one round over 64 loads finds nothing. A run starts one more, for the one
# processor. Of a batch 20 traces end in what one read gives, and one of the threads that judge them is there already. A campaign
# of replays starts its workers alone, and none without seeds.
WITH_COUNTED_STARTS = """
0 judge --workers 1 made/loads.trace
2 judge --workers 3 made/loads.trace
63 judge --workers 64 made/loads.trace
0 explain --workers 1 made/loads.trace
2 explain --workers 3 made/loads.trace
63 explain --workers 64 made/loads.trace
0 draw --workers 1 made/loads.trace
2 draw --workers 3 made/loads.trace
63 draw --workers 64 made/loads.trace
0 batch --workers 1 files/batch_examples.stream
1 batch --workers 2 files/batch_examples.stream
2 batch --workers 3 files/batch_examples.stream
19 batch --workers 64 files/batch_examples.stream
0 replay --unit serial --workers 1 made/loads.program examples/replay_forwarded.schedule
2 replay --unit serial --workers 3 made/loads.program examples/replay_forwarded.schedule
63 replay --unit serial --workers 64 made/loads.program examples/replay_forwarded.schedule
0 replay --explain --unit serial --workers 1 made/loads.program examples/replay_forwarded.schedule
2 replay --explain --unit serial --workers 3 made/loads.program examples/replay_forwarded.schedule
1 run --unit serial --seed 1 --workers 1 made/loads.program
3 run --unit serial --seed 1 --workers 3 made/loads.program
64 run --unit serial --seed 1 --workers 64 made/loads.program
1 run --explain --unit serial --seed 1 --workers 1 made/loads.program
3 run --explain --unit serial --seed 1 --workers 3 made/loads.program
0 campaign --unit serial --workers 64 --first 1 --count 0 --procs 1 --ops 20 --addrs 2
1 campaign --replay --unit serial --workers 1 --first 1 --count 2 --procs 1 --ops 20 --addrs 2
3 campaign --replay --unit serial --workers 3 --first 1 --count 2 --procs 1 --ops 20 --addrs 2
64 campaign --replay --unit serial --workers 64 --first 1 --count 2 --procs 1 --ops 20 --addrs 2
"""
