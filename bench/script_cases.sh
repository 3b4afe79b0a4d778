#!/usr/bin/env bash
# Writes what the cases of `check --script` expect: the scripts, by script_twin.py, from traces of svc_cases, and the first
# lines that one of them prints. Run it at the top.
set -eu
cd "$(dirname "$0")/../crates/svc_cases/data"
mkdir -p scripts/of_traces
for trace in traces/{ten_events,a_trace_of_a_version_is_sound,a_trace_of_a_replacement_is_sound,a_trace_of_a_cancel_is_sound} \
    traces/{a_trace_of_a_wrong_guess_is_sound,a_trace_of_a_reuse_is_sound,a_trace_of_a_spill_is_sound} \
    traces/{a_trace_of_a_trap_is_sound,a_trace_of_63_turns_is_sound,the_first_0_entries_are_sound} \
    schedules/schedule_of_a_chain_on_3_by_bursts_of_5; do
    python3 ../../../bench/script_twin.py < "$trace.csv" > "scripts/of_traces/$(basename "$trace").csv"
done
(sed -n 2,40p schedules/schedule_of_a_chain_on_3_by_bursts_of_5.csv; echo ...) > wanted/a_script_of_a_scheduled_run_leads_to_it.txt
