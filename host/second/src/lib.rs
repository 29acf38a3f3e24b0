//! A real-time dispatcher after the paper "Exact scope and rules", called 01 below, and after ten
//! requests of the paper "More requests from customers": "A core for each picked row", called
//! 02, One, "Why did tank 14 wait?", called 02, Two, "Half is heavy", called 02, Three, "The long
//! walk", called 02, Four, "Writing tables", called 02, Five, "Whole-core rows", called 02, Six,
//! "Shorter slots", called 02, Seven, "Format 2 breaks ties kindly", called 02, Eight, "One core
//! held back", called 02, Nine, and "Finding a tank's count quickly", called 02, Ten. Where One,
//! Three, Six, Seven, Eight and Nine change 01, they are followed; Two asks of the slot that is
//! about to run and changes nothing; Four finds the group deadline by a formula and changes no
//! answer; Five writes the tables that 01 reads and changes nothing else; Ten keeps a summary
//! beside a trace and changes no trace.
//!
//! Six lets a row have e = p, in a table, in a state and in a window asked for alone: "From then on
//! 18 means e above p", and 50 likewise. Such a row has windows of one slot, b = 0 and D = d, and
//! the formula of Four is not asked there. All else, the order, the shares, the sum, is as it was.
//!
//! Seven lets a state go on to time 1,000,000,000,000, and windows be asked for alone up to subtask
//! 1,000,000,000,001, "one past that": "30, 32 and 50 use the new limit." The slot count of a trace
//! and 47 stay: "Each trace still covers at most 1,000,000,000 slots from slot 0." That slots are
//! shorter changes nothing else, since nothing here says how long one is.
//!
//! Eight lets a table have format 2, in bytes, as a value and in a state: "11 means neither 1 nor
//! 2". The bytes after the format stay; the order ends differently: "among full ties, a row picked
//! in the previous slot goes first, then the lower row number". Who that was is what One has the
//! state remember, and of what is remembered the rows must rise now, in both formats.
//!
//! Nine changes the printer alone: "Slots past the k list now use M - 1, and 1 if M is 1." A k that
//! is listed stays as it is, M too, and so does the sum of a table, held against M·L. A slot, a
//! trace and the question of Two are told their k or their cores, as many as M, and assume none.
//!
//! Ten has "one entry for time 0 and for each multiple of 1,024 up to the slot count: the place
//! where the next record begins, and the quanta of each row before it". A question counts on from
//! one of these; a check says whether they are what a well-formed trace yields; a slot may be added
//! to a trace and to its summary at once. A slot, a trace and its checker stay as they are.
//! Whatever needs a count but the question counts from slot 0, each time anew.
//!
//! One module for each part of 01, one for each of One, Two and Five, and two for Ten; the papers'
//! words stand in the comments beside the code that follows them, and their numbers stand in the
//! code as they are written there.
//!
//! * `table`: the table, in bytes, and the faults of a table value.
//! * `writing`: a table value written into a lent buffer (02, Five).
//! * `windows`: start, deadline, bit and group deadline of a subtask, the last by the formula of
//!   02, Four (with e = p it is the deadline), and by 01's walk.
//! * `share`: the exact share of a row.
//! * `cores`: a core for each picked row (02, One).
//! * `slot`: who is ready, who goes first in either format, one slot's choice, and what decided it.
//! * `why`: why a row is picked in the slot about to run, or waits (02, Two).
//! * `trace`: the record of one slot inside a trace.
//! * `checker`: the judge of traces from any origin.
//! * `summary`: the entries beside a trace, the question for row and time, the check and the
//!   building of a summary (02, Ten).
//! * `adding`: one slot more at the end of a trace, and the entry that is due with it (02, Ten).
//! * `printer`: the slot printer's whole output, one core held back past the k list (02, Nine).
//! * `never_late`: full boxes by chance, three in ten with rows of e = p and every second one in
//!   format 2, run with all cores free.
//! * `questions`: single rules of the above, asked of numbers that no table or state may have; D of
//!   a next window by the walk, and picks in the order of format 1.
//!
//! # Planted slips
//!
//! Built with `--cfg slip="NAME"` the program makes one mistake on purpose, so that a bench can
//! show that it would be seen. Built without, none of it is there. Each is marked `slip:` at its
//! place. The first five are those of 01's "Slips we have made", the next three are of the kind
//! that is off by one. The next show at the ends of what may be asked alone: a number cut to
//! fewer bytes, a limit that lets one too many or too few pass, a kind or a place that is not
//! looked at. The next four are of 02, One, the next three of 02, Two, and the next two of
//! 02, Four: the first of these shows in `windows::window` and in the order, where D is found by
//! the formula, the other in `windows::window_by_walk` and `questions::next_window`, where it is
//! found by the walk. The next three are of 02, Five, and show in `writing::write_table` alone. The
//! next three are of 02, Six, and show with e = p alone: the first wherever a table or a state is
//! judged, the second in both windows asked for alone, the third in `windows::window`. The next
//! four are of 02, Seven: the first and the last show in a slot and in `why::why`, the second in
//! both windows asked for alone, the third where a trace is judged. The next ten are of 02, Eight:
//! the first five show in the order, in a slot and in `why::why`, the first of them in format 1 and
//! the others in format 2; the next three where a format is judged, in a value, in bytes and in a
//! state; the ninth where a state is judged, the tenth in `why::answer`. The next three are of
//! 02, Nine, and show in what is printed alone: the first two in slots past the k list, the other
//! in slots that it reaches. The last seven are of 02, Ten: the first shows in
//! `summary::check_summary` and `summary::build`, the next three in `summary::question`, the next
//! two in `adding::add`, and the last in `summary::question` and `adding::add`.
//!
//! | name | place | the mistake |
//! |---|---|---|
//! | `fraction_reduced` | `windows::job_start` | 2/6 treated as 1/3 for the job borders |
//! | `bit_left_out` | `slot::rule_between` | "b = 1 before b = 0" left out of the order |
//! | `smaller_group_first` | `slot::order` | smaller D first |
//! | `weights_in_floats` | `table::test_sum` | e/p added up in floats; a full box gets refused |
//! | `late_only_if_picked` | `slot::give_quanta`, `checker::judge` | only picked rows are tested |
//! | `start_of_next` | `windows::start_after_phase` | a window starts at the next one's start |
//! | `deadline_rounded_down` | `windows::deadline_after_phase` | floor in place of ceil |
//! | `half_is_light` | `windows::heavy` | 1/2 counted light |
//! | `input_read_short` | `printer::read_input` | only the first 65,536 bytes are judged |
//! | `subtask_as_4_bytes` | `windows::window_with` | i cut to 32 bits |
//! | `place_as_4_bytes` | `slot::slot_on` | the place cut to 32 bits |
//! | `slots_limit_4097` | `printer::MOST_SLOTS` | 4,097 slots are taken |
//! | `record_begins_at_0` | `trace::record` | every part is said to begin at 0 |
//! | `kinds_above_1_early` | `table::Row::early_release` | any kind above 0 is early release |
//! | `reach_one_less` | `questions::in_reach` | 2^40 itself is not answered |
//! | `lowest_core_first` | `cores::place` | each row takes the lowest free core, whoever stays |
//! | `set_as_8_bits` | `slot::slot_on` | the set cut to its low 8 bits |
//! | `memory_kept` | `slot::slot_on` | a slot that picks nobody keeps the old memory |
//! | `core_m_allowed` | `slot::is_core` | a remembered core equal to M is no fault |
//! | `best_in_place_of_lowest` | `why::named_of` | the first of the picked is named, not the last |
//! | `no_core_before_ready` | `why::reason` | at k = 0 every row has no core free |
//! | `row_before_cores` | `why::refusal` | 36 is tested before 33 |
//! | `phase_counted_twice` | `windows::group_deadline` | the formula's d counted from time 0 |
//! | `walk_stops_before_d` | `windows::walked_group_deadline` | a 3-slot window ends its own walk |
//! | `room_before_sum` | `writing::refusal` | 37 is tested before 22 |
//! | `room_one_more` | `writing::too_short` | a buffer just as long as the bytes is refused |
//! | `written_with_37` | `writing::write_table` | a buffer that is too short is written full |
//! | `whole_core_refused` | `table::above_its_period` | e = p is still refused with 18 |
//! | `whole_core_window_refused` | `windows::refused` | e = p is still refused with 50 |
//! | `whole_core_no_group` | `windows::group_deadline` | with e = p D is 0 |
//! | `old_time_limit` | `slot::LAST_TIME` | 30 and 32 still use 1,000,000,000 |
//! | `old_last_subtask` | `windows::LAST_SUBTASK` | 50 still uses 1,000,000,001 |
//! | `one_limit_for_both` | `checker::MOST_SLOTS` | 47 uses the time limit; no count is above it |
//! | `time_as_4_bytes` | `slot::state_refusal` | the time cut to 32 bits |
//! | `kind_in_format_1` | `slot::one_alone_ran` | a row that ran goes first in format 1 too |
//! | `kindness_forgotten` | `slot::one_alone_ran` | format 2 has the order of format 1 |
//! | `row_before_ran` | `slot::rule_between` | the lower row number is asked before who ran |
//! | `ran_before_group` | `slot::rule_between` | who ran is asked before the group deadline |
//! | `ran_before_bit` | `slot::rule_between` | who ran is asked before the bit |
//! | `format_0_taken` | `table::faultless` | format 0 of a table value is no fault |
//! | `format_2_refused` | `table::read` | bytes of format 2 are still refused with 11 |
//! | `format_of_value_not_asked` | `slot::broken` | in a state any format is taken |
//! | `falling_rows_remembered` | `slot::not_rising` | remembered rows may stand in any order |
//! | `why_row_number_for_ran` | `why::rule_number` | 4 is told where 5 decides |
//! | `all_cores_past_the_list` | `printer::past_the_list` | slots past the list still use all M |
//! | `no_core_of_one` | `printer::past_the_list` | with M = 1 slots past the list use 0 |
//! | `held_back_of_the_list` | `printer::k_of` | a listed k of 2 to M runs as k - 1 |
//! | `entry_too_few` | `summary::entries` | a count that is a multiple of 1,024 has no entry |
//! | `time_at_count_refused` | `summary::past` | a time equal to the count is 38 |
//! | `next_row_of_entry` | `summary::counted_at` | the next row's count is read from the entry |
//! | `place_always_asked` | `summary::quanta_before` | 39 for a place that no record is read from |
//! | `limit_before_cut` | `adding::count_of` | 47 is tested before 40 of the records |
//! | `entry_from_state` | `adding::add` | the due entry's counts are the state's quanta |
//! | `named_twice_counts_twice` | `summary::counts_here`, `summary::quanta_of` | each time counts |

// compilers that know the lint warn of a cfg name they were not told of; older ones do not know
// the lint
#![allow(unknown_lints)]
#![allow(unexpected_cfgs)]

pub mod adding;
pub mod checker;
pub mod cores;
pub mod never_late;
pub mod printer;
pub mod questions;
pub mod share;
pub mod slot;
pub mod summary;
pub mod table;
pub mod trace;
pub mod why;
pub mod windows;
pub mod writing;
