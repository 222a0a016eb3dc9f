"""What bench/believe can't read off the sources: subjects, laws, and the sentences of its page."""

# Each subject with its files, in the order in which one reads; a file is `crate.Name`, all files of a crate `crate`.
SUBJECTS = [
    ("Time and rows", "sig_base.Window sig_base.Stamp sig_base.HourRows sig_base.Numbers board.Logs span_set hour_sweep.Hours"
     " hour_sweep.Rows"),
    ("Codes and machines", "event_codes colour_machine channel_tables"),
    ("Store and edits", "hour_store session.Ranges session.Edits"),
    ("Histories and agreement", "reach.Runs board.Channels board.History signal_log.Log signal_log.Rows signal_log.States"
     " signal_log.Points detector_state.Free detector_state.Bounds detector_state.Tables detector_state.Tells"),
    ("Rules and verdicts", "reach.Tests board.Verdicts rule_audit hour_work.Verdicts hour_work.Counts"),
    ("Decisive windows", "decisive session.Windows"),
    ("Measures", "hour_sweep.Sums hour_sweep.Numbers service_cut.Signs service_cut.Services service_cut.Cycles service_cut.Cut"
     " detector_state.States detector_state.Ranges detector_state stop_bar.Going stop_bar.Windows stop_bar.Crossing stop_bar.Lists stop_bar.Bars"
     " stop_bar.All split_measures other_measures.LastRows other_measures.Peds"
     " other_measures.Preempts other_measures.Sums other_measures.States other_measures.Hours arrival_measures.Arrivals"
     " arrival_measures.Own arrival_measures.Green arrival_measures.Faults arrival_measures.Travel arrival_measures.Cycles"
     " arrival_measures.Judged arrival_measures.Hours arrival_measures.Points offset_search hour_work.Rows hour_work.Measures"
     " hour_work.Numbers measure_laws"),
    ("What moves", "board.Hours service_cut.Parts arrival_measures.Opens arrival_measures.Crossing"
     " hour_work.Points hour_work.Moved session.Moved"),
    ("Files", "row_reader hour_pack sigaudit.HourFile"),
    ("Configuration", "ring_config"),
    ("Words", "command_line sigaudit.Asked sigaudit.Aims"),
    ("Script", "script_lines"),
    ("Texts", "report_text.Line report_text.Heads report_text.Counts report_text.Refusals report_text.Packed"
     " report_text.ConfigRefusal report_text.Applied report_text.Rules report_text.Audit report_text.Approaches"
     " report_text.Measures report_text.Shifts report_text.Usage"),
    ("The demonstration", "demonstration"),
    ("Pairs", "strand_search filling_pair session.Pairs report_text.Pairs sigaudit.Pairs"),
    ("The run", "sig_base.Reads outside sigaudit.Turns sigaudit.Audit sigaudit.Points sigaudit.Offsets sigaudit.Script"
     " sigaudit.Transcript session.Opens sigaudit.Counting sigaudit.Run"),
]

# What the words may ask for, in an order in which the next adds little: title, the definitions that its clauses cite,
# and of a definition by cases the case that counts.
REQUESTS = [
    ("nothing that can be done", "sigaudit.Run.IsRun", "sigaudit.Transcript.IsAnswer=None"),
    ("a count (`--count`)", "sigaudit.Run.IsRun",
     "sigaudit.Transcript.IsAnswer=for_count sigaudit.Transcript.file_outcome=Count"),
    ("a packed hour (`--pack`)", "sigaudit.Run.IsRun",
     "sigaudit.Transcript.IsAnswer=for_pack sigaudit.Transcript.file_outcome=Pack"),
    ("a script over a configuration (`--config`, `--script`)", "sigaudit.Run.IsRun",
     "sigaudit.Transcript.IsAnswer=for_run sigaudit.Transcript.IsAimOutcome=for_lines"),
    ("how often it opens each hour", "sigaudit.Counting.OpensAnswer sigaudit.Counting.WhereTaken", ""),
    ("a demonstration (`--demo`)", "sigaudit.Run.IsRun sigaudit.Run.LeavesShelf",
     "sigaudit.Transcript.IsAnswer=for_demo sigaudit.Transcript.IsAimOutcome=for_lines"),
    ("what a rule leaves undecided (`--rule`, `--at`)", "sigaudit.Run.IsPairsRun",
     "sigaudit.Transcript.IsAnswer=for_pairs sigaudit.Transcript.IsAimOutcome=for_rule"),
]

BY_REQUEST = """
Who wants to know of one request alone needs only what its case of [`IsAnswer`](#IsAnswer) rests on, with the frame of a run, which is that of the first line.
"""

# Laws above definitions: `crate.Name.definition crate function clause..`; a nameless clause is `-`. Of the first list the
# law says all that the definition says, in other words; of the second some of it.
EQUATES = """
service_cut.Services.service_at service_cut services_are_whole -
service_cut.Cycles.cycle_at service_cut cycles_are_whole -
arrival_measures.Green.shows_green hour_work cycles_show_green green not_green
arrival_measures.Green.green_arrivals_in measure_laws green_is_of_all_histories cycles
arrival_measures.Green.green_tenths_in measure_laws green_is_of_all_histories cycles
arrival_measures.Faults.faulty hour_work faulty_is_sure -
arrival_measures.Faults.faulty hour_work faulty_by_states -
arrival_measures.Faults.is_fault_row hour_work fault_rows_are_sure -
arrival_measures.Faults.is_arrival hour_work fault_rows_are_sure -
detector_state.Tells.IsSure detector_state colours_tell -
detector_state.Tells.IsColourReached detector_state colours_tell -
hour_pack.Reading.reading hour_pack reading_is_exact -
ring_config.Settings.config_of config_laws configurations_are_accepted files
ring_config.Settings.config_at config_laws configurations_are_accepted documents
ring_config.Walk.entries_of config_laws tables_are_accepted accepted refused
hour_pack.Reading.reading hour_pack faults_have_causes -
hour_pack.Number.number_bytes hour_pack numbers_have_one_spelling each one
row_reader.Number.number_of stamp_laws numbers_are_read numbers
row_reader.Stamp.date_of stamp_laws dates_are_read dates
row_reader.Stamp.time_of stamp_laws times_are_read times
row_reader.Stamp.stamp_of stamp_laws stamps_are_read stamps
row_reader.Stamp.stamp_in stamp_laws stamps_are_read windows
row_reader.Stamp.hour_stamp_of stamp_laws hours_are_read hours
row_reader.Trim.trimmed record_laws fields_are_trimmed fields
row_reader.Rows.record_row record_laws records_give_rows row
row_reader.Rows.record_row record_laws records_are_refused refusal
row_reader.Rows.good_rows record_laws records_are_rows rows
row_reader.Rows.good_rows record_laws first_refusal_decides refused
row_reader.Order.in_row_order row_reader put_in_order order rise permutation tenths
sig_base.Stamp.stamp_at sig_base Window::stamp value shows
session.Edits.step_of edit_laws edits_make_stores made
session.Edits.step_of edit_laws refusals_in_order refused
script_lines.Words.said line_laws lines_are_said said
other_measures.Peds.delay_at delay_laws delays_are_whole delays
other_measures.Peds.ped_of delay_laws delays_are_whole peds
other_measures.Preempts.event_at delay_laws events_are_whole events
other_measures.Preempts.preempt_of delay_laws events_are_whole preempts
"""
TELLS = """

ring_config.Settings.config_at config_laws first_table_decides documents
service_cut.Cut.served_from service_cut served_are_services -
service_cut.Cut.services_from service_cut hours_add_up services
service_cut.Cut.services_from service_cut hours_count services
service_cut.Cut.cycles_from service_cut hours_add_up cycles
service_cut.Cut.cycles_from service_cut hours_count cycles
service_cut.Cut.cycles_from hour_work green_before_yellow cycles
service_cut.Cut.closing_at service_cut closing_is_of_the_hour -
service_cut.Cycles.cycle_begun_of measure_laws open_cycles_show_green green not_green
other_measures.Hours.delays_from hour_work hours_make_up_the_log delays
other_measures.Hours.events_from hour_work hours_make_up_the_log events
arrival_measures.Points.points_from hour_work hours_make_up_the_log points
arrival_measures.Points.diagrams_of arrival_measures diagrams_fit -
split_measures.Verdicts.IsVerdict split_measures numbers_tell -
detector_state.Hours.AreTenths stop_bar tenths_are_one -
detector_state.Ranges.Counts detector_state numbers_bound -
detector_state.Ranges.Counts detector_state numbers_reached -
stop_bar.Bars.IsAtBar stop_bar what_crosses_is_one -
stop_bar.Bars.ending stop_bar windows_are_listed_once -
stop_bar.Windows.ArePending stop_bar pending_are_one -
hour_work.Verdicts.AreAuditLines hour_work reports_are_one lines
hour_work.Moved.IsSameCarry hour_work points_are_one carries same_carry
hour_work.Moved.IsSameFuture hour_work points_are_one futures same_future
measure_laws.Plain.IsHourOf measure_laws sums_are_plain -
measure_laws.Plain.IsWindowOf measure_laws sums_are_plain -
measure_laws.Plain.IsPart measure_laws parts_are_one -
session.Edits.step_of edit_laws knowledge_moves known
rule_audit.Rules.rules_for rule_audit rules_are_of_their_channels -
rule_audit.Obligations.obligations_from filling_pair obligations_have_lines -
board.Verdicts.IsVerdict decisive clause_by_terms -
decisive.Window.only decisive more_is_known only whole
decisive.Window.HasLogVerdict decisive more_is_known broken idle open grows
decisive.Window.IsDecisive decisive window_is_one -
signal_log.Log.HasHistory signal_log some_history_agrees history
signal_log.Log.IsContradiction signal_log some_history_agrees none one
signal_log.States.MayBeAtEnd signal_log channels_combine -
hour_store.Store.nothing_held signal_log nothing_contradicts -
hour_store.Store.is_known signal_log less_is_known -
row_reader.Repeats.without_repeats row_reader drop_repeats kept part no_repeat count
hour_pack.Grammar.packed hour_pack none_begins_another -
offset_search.Shifted.counts_of offset_search shift_counts counts reach
filling_pair.Strands.AreStrands filling_pair strands_are_of_history -
filling_pair.Kept.AreKept filling_pair kept_by_states -
sigaudit.Transcript.IsTranscript sigaudit transcripts_are_one one
sigaudit.Transcript.IsTranscript transcript_laws transcripts_exist exists
sigaudit.Transcript.IsBeginning sigaudit transcripts_are_one begins
sigaudit.Transcript.IsBeginning transcript_laws transcripts_exist begins
"""

# The headline in ten sentences; `[words](crate.Name.definition)` leads to the definition.
HEADLINE = """
1. A run gets words, a shelf of files and a sink of bytes. Where the shelf reveals its files and the sink its bytes, as those in memory do and a disk and standard output don't, and the words don't ask what a rule leaves undecided (`--rule K --at T`), [it ends as the transcript does](sigaudit.Run.IsRun) and writes exactly its bytes; or it was cut off, with `Fault` where a count of faults rose or stands at its last value, or with `Memory`: then it [wrote a prefix of what the transcript begins with](sigaudit.Run.WritesBeginning).
2. [The transcript](sigaudit.Transcript.IsTranscript) is what [the words ask for](sigaudit.Asked.asked_of), [answered from the files](sigaudit.Transcript.IsAnswer): the usage line, a count, a packed hour, a script over a configuration, or the same over [made-up files](demonstration.Files.demo_files).
3. [What a configuration says](ring_config.Settings.config_of) is accepted or refused by its bytes alone; then [each line of the script](script_lines.Lines.lines_of), by [what it says](script_lines.Words.said), has [its turn](sigaudit.Script.IsTurn) over a store that at first [holds nothing](hour_store.Store.nothing_held).
4. [A store](hour_store.Store.Store) has for each hour nothing or the rows that [the hour's file says](sigaudit.HourFile.hour_said), in the order of their tenths and without [repeats](row_reader.Repeats.is_repeat), and the blanked tenths; [a tenth is known](hour_store.Store.is_known) where its hour is held and it isn't blanked; so an hour that is held is taken as logged completely. A load or a replacement is refused first for its hour, its file and the file's records; then an edit [makes another store of it, or is refused](session.Edits.step_of) by the first reason in a fixed order.
5. [A history](board.History.History) has for each channel a state before the window, one of its colours, entered at some earlier tenth, and for each tenth a list of events, codes of one byte with parameters of two. [It agrees](signal_log.Log.AgreesWith) with what is known where each event of a configured channel is [legal](reach.Runs.Step) by the channel's [table](channel_tables.Tables.table_of) and floors, and each known tenth has exactly the events of its rows, in their order. Events of no configured channel are free at unknown tenths.
6. An edit that isn't refused so is [accepted where some history agrees](sigaudit.Script.IsMade) with the new store, and answered by [the hours that move](session.Moved.Moves), those that it touches among them: from the last point, at or before these, from which both stores can be completed alike, up to the first one after them at which both say the same of what came before. (That the numbers and the verdicts of the other hours stay is no clause of `run`, but of `Session::apply`: `stays`, `lines`.) Else it is refused by [the row at which the new store contradicts itself](signal_log.Log.IsContradiction), and nothing has changed.
7. [An audit](sigaudit.Audit.IsAudited) counts and lists [the lines of the hours](hour_work.Verdicts.AreAuditLines): it judges [what is to be judged](hour_work.Verdicts.obligations_in) by [the rules](rule_audit.Rules.rules_for) over all histories that agree with the store, by the states that are possible [before a row](signal_log.States.MayBeAfter) or [at the end of a tenth](signal_log.States.MayBeAtEnd): [a duration](rule_audit.Judged.IsIntervalVerdict), and [what channels show together](board.Verdicts.IsVerdict), is kept where it holds in all of them, broken where it holds in none, and else undecided. A duration is judged at each known row of its channel, and [holds](rule_audit.Judged.KeepsInterval) in a history in which it doesn't end there; where it ends in none it is idle, and has no line. The others, of whose terms [one has to hold](board.Verdicts.Keeps), are judged at the end of each known tenth that has a row of their channels or stands behind an unknown one.
8. Each broken line has [the stretch of the log that decides it](decisive.Window.IsDecisive): of the stretches that hold the judged tenth, and begin and end there, at a tenth with a known row of the rule's channels, or at the window's first or last tenth, it is one over which alone the line is broken: the one with the earliest end, and then with the latest begin.
9. Measures are [the numbers of a part of the log](measure_laws.Plain.IsPart), of [an hour](measure_laws.Plain.IsHourOf) or of [the whole window](measure_laws.Plain.IsWindowOf), in the same words: what is held and known, the counts of the verdicts, and by the known rows [whole services](service_cut.Services.service_at) and [whole cycles](service_cut.Cycles.cycle_at), [pedestrian delays](other_measures.Peds.delay_at), [preempts](other_measures.Preempts.event_at), [arrivals](arrival_measures.Travel.arrivals_at) and rows of some codes; over all histories [split failures](split_measures.Verdicts.IsVerdict), [what a phase shows](arrival_measures.Judged.AreJudged) at the end of the tenth of an arrival or an actuation, and [tenths in a state](measure_laws.States.AreStatesBetween). A service and a cycle count in the hour in which their yellow ends, the split of a service where its red window ends, 50 tenths later, an arrival at its arrival tenth, which is its row's and the travel time. Rows of a detector that is sure to be in a fault are no arrivals or actuations, and are counted apart.
10. Each end of a run but `Memory` has [a condition under which alone it comes](sigaudit.Run.HasCause), whatever shelf and sink reveal; `Memory` may come at any time, and a run that answered it at once would meet all clauses. Words that ask what a rule leaves undecided are answered by [one right answer of several](sigaudit.Run.IsPairsRun): of each such line a pair of *fillings* of the unknown tenths, one that keeps the rule and one that breaks it. Where a script has edits, measures, bad and skipped lines alone, and all are taken, [each hour is opened](sigaudit.Counting.OpensAnswer) at least as often as it moves, and at most three times as often as it moves or lies on the way to a contradiction.
"""

ANTT = """
antt is the language of the definitions, the clauses and the proofs. A clause is a proposition, and a proposition is a type in `Type 0` (a record of such relations is in `Type 1`). A name of type `A → B → Type 0` is a relation of an A and a B, one of type `A → B → ℕ` a function.

| Written | Read |
|---|---|
| `f x y`, `f (g x)` | f of x and y, f of g of x |
| `a ≡ b`, `a ≢ b` | a and b are equal; they differ |
| `P × Q`, `P ⊎ Q`, `P → Q`, `P ↔ Q`, `P → ⊥` or `¬ P` | and, or, implies, exactly where, not |
| `(x : A) → P`, `(x : A) × P` | for all x of A, for some x of A |
| `⊤`, `Unit {0}`; `⊥` | true; false |
| `A × B`, `(a, b)`, where A and B are types of values | pairs |
| `f [] = ..`, `f (x ∷ xs) = ..` | a definition by cases: the first one that fits holds, and `_` fits all |
| `record R : Type 0 where` with fields | values with these fields. Where the fields are propositions, `R` says all of them, and a field that is a value is read *for some*. Names in parentheses behind `R` are its arguments |
| `record { f = a }`, `record r { f = a }`, `r.f`, `p.0` | a record, r with another f, its field f; the first part of a pair |
| `data D : Type 0 where` with names | values of one of these forms |
| `ℕ`, `a - b`, `a / b` | numbers from 0; the difference, 0 at the least; the whole quotient |
| `ℤ`, `pos 5`, `negsuc 4`, `≤ℤ`, `+ℤ` | integers, 5, -5, and their order and sum |
| `a < b`, `a ≤ b` | of numbers: less, at most, as propositions |
| `Bool`, `nat_lt a b`, `nat_le a b`, `nat_eq a b`, `==`, `&&`, `not`, `IsTrue b` | tests: less, at most, equal, and, not; the test is true. `int_lt`, `int_le` and `int_eq` test integers |
| `List A`, `[]`, `x ∷ xs`, `++`, `length`, `map f xs`, `filter p xs`, `take n xs`, `fold`, `flat_map`, `All P xs` | lists, as in other languages; `fold f a xs` goes from the first on, and so does `reduce f xs`, which has no value where there is no element. A text is the list of its bytes, and `codes "ab"` are those of `ab` |
| `find p xs`, `position p xs`, `list_any p xs`, `list_all p xs`, `count_by p xs`, `sum xs`, `range_with_len a n` | the first element that passes the test p, its place, whether some does, whether all do, how many do; the sum; the n numbers from a on |
| `slice_get xs i`, `slice_index_or xs i d`, `slice_index xs i` | what stands at place i, from 0: `None`, d or 0 where nothing does |
| `Option A`, `Some x`, `None`; `Result A E`, `Ok x`, `Err e`; `IfSome o (λ x. P)`; `MatchOption o P (λ x. Q)` | a value or nothing; a value or an error; P of the value, where there is one; P where there is none, and Q of the value where there is one. `option_map f o` is f of the value, `unwrap_or o d` the value or d, `option_map_or f o d` f of the value or d, `ok_or o e` the value or the error e, `option_zip a b` both values, where both are there, `option_to_list o` the value as a list, `result_map_both f g r` f of the value or g of the error; `IsSome o` says that there is a value, `is_none o` tests that there is none |
| `AllByRecursion P xs`, `AllZip R xs ys` | P of each element; R of the elements at each place, of lists of one length |
| `Appends a b bytes` | of bytes that may be revealed or not: where a is revealed so is b, and it is a with these bytes behind it; where it isn't, nothing |
| `(x : A) (y : B) → P`, precedence | for all of both. `→` binds weakest: `P → Q ↔ R` is `P → (Q ↔ R)`, and `a ≡ b → P` is `(a ≡ b) → P` |
| `zero`, `suc n`, `tt` | 0, n + 1; the proof of `⊤` |
| `min`, `max`, `^`, `%`, `\|\|`, `-ℤ`, `*ℤ`, `<ℤ` | the lesser, the greater; power, remainder; or; as above, of integers |
| `drop n xs`, `replicate n x`, `slice_set xs i x`, `sum_by f xs`, `filter_map f xs`, `decimal n`, `bytes_eq a b`, `starts_with nat_eq xs p`, `is_some o`, `option_or o p`, `option_and_then f o`, `cons_option o xs` | without the first n; n times x; xs with x at place i; the sum of f of each; f of each, where it gives a value; the decimal digits of n; equal texts; whether xs begins with p; whether there is a value; o, or p where there is none; f of the value; the value before xs, where there is one |
| `position_or_len p xs`, `unsigned_abs z`, `bit_at n i`, `bit_or a b`, `to_be_bytes w32 n`, `utf8_valid_len bytes`, `0x53` | the place of the first element that passes, or the length; z without its sign; bit i of n, 0 or 1; the bits of both; n as four bytes, the highest first; how many bytes from the first on are UTF-8; 83 |
| `λ x. e`, `let x = e in ..`, `if c then a else b`, `do x ← e ..`, `e >>= f` | a function, a name, a choice; e and what follows it, unless e is an error or nothing; f of the value of e, likewise |
| `abbrev`, `unfoldable`, `pub`, `{A : Type 0}`, `{A = A}` | how the checker opens a name, who may use it, an argument that is left out, or written after all: none of it matters for the meaning |

A name without a link that isn't in the list below is of the same file: its definition stands further up in the same subject, under its name or that of its file and itself. A bound name hides a definition of the same name, and a file's own definition one of another file. A file may take over a name under another one: `AtBar` is `Crossing` of `stop_bar`, `BadRow` is `Row` of `PackError`, `TooManyHeldRows` and `NoMemoryForEdit` are `TooManyRows` and `Memory` of `EditError`, and `m.x` is x of what the file calls m, as `line.load`, `kinds.Phase` or `ended.Done`. `Text` is a list of bytes, `Tenth` is `ℤ`. Of TOML, `Data` is a value, `Members` the keys of a table with their values, `Items` the values of an array; `as_..` is the value of that type, where it is one, and `get_member` that of a key.

A type of the code is shown in Rust. In a definition its numbers are `ℕ` (`i64` is `ℤ`), its texts and `Vec`s lists, and `Kind.Phase` is the variant `Phase`; a type whose fields nobody sees is shown by the value as which it is seen. In a clause of a function `x.old` and `x.new` are what the reference x leads to before and after the call, `x.now` is what it leads to at all, and `result` is the answer.
"""
INTRO = """
# What must be believed

A proof shows that the program does what a clause says. That the clause says what a traffic engineer means no proof shows: it has to be read. This page has all of the project's own definitions on which the clauses of `run` rest, and no other: each once, with what it means, its text and its place. What the libraries' names mean, as CSV and TOML, the calendar and options of a command line, stands in the toolchain's own folders; the last section lists these names. `bench/believe write` makes the page of the sources; `bench/believe check` says where it isn't what they give.

Read the ten sentences, and go from each to its definitions; or read the subjects from the first to the last: inside a subject what is cited stands before what cites it, as far as that goes; of another subject it may stand later. *Cites* leads to what a definition takes from other files. Places are in `crates`. The sentences, the clauses and the subjects Time and rows, Codes and machines, Store and edits, Histories and agreement, Rules and verdicts, Decisive windows and The run are a long afternoon's plain reading: they cover sentences 1, 4, 5, 7, 8 and, in 6, what is accepted. The others take days, and so does it to hold each comment of the page against its text.

Words that stand everywhere: the *window* is the 1 to 744 hours that the configuration names, hour 0 the first of them; a range *from a up to b* leaves b out, unless it is said otherwise; a *tenth* is a tenth of a second, counted from the window's start, and an hour has 36,000 of them; *point k* is where hour k begins; what came before it is its *carry*, what can still come its *future*. An hour is *held* while rows of it are, and a tenth of it is *known* unless it is *blanked*. A *row* is an event of the log: tenth, code, parameter. A *channel* is a phase, a pedestrian signal or its detector, an overlap, a detector, a preempt's input or service, or the coordination; those of the configuration are *tracked*; its *colour* is what it shows or does; a *letter* is one of its codes, by the code's place in the channel's table (of the coordination, whose code is one, the parameter). In rules a *clause* is a list of *terms*, each a channel and some of its colours. A *floor* is the least age at which a colour may be left. A *spec* is a channel with its floors, and the place of a spec among all specs stands for the channel.
"""

CLAUSES = """
A `Shelf` has of its own, beside its calls, `S.files`: what is at each name, where it is revealed, and `S.counts`: how often a file was missing, a fetch failed and a file was too long. A `Sink` has `K.taken`: the bytes that it took, where they are revealed, and how often it failed. The shelf and the sink in memory reveal all; those of a disk and of standard output reveal nothing. So of a run with a disk only `cause`, `usage`, `alone`, `never_fall` and `grow` say something; with files in memory and standard output the headline fixes how it ends, and not the bytes: that it too writes the transcript doesn't follow from the clauses, but rests on `run` being one code for all shelves and sinks, and on a disk giving what is at the name. `Global` is the allocator, and `L` a mark that ties a counter to the rows of one store. A `Words` is seen as the list of its texts, a `Reads` as the list of its 744 counts. `words` are the words after the program's name, `reads` how often each hour of the window was opened: an hour is opened when its rows are handed out, by the one call that counts it; that no rows are kept beside is no clause, but tested. The answer is a `Status`; the program ends with 0 for `Done`, 1 `SomeRefused`, 2 `Usage`, 3 `BadConfig`, 4 `Fault`, 5 `Memory`, 6 `NoFile`.
"""

MARKS = """
*The program written again* are definitions that compute and share their name with a function of their crate. *Said in other words*: a law equates the definition with a plainer one, where what the law wants holds, or it is cited on the way to such a one alone; then the plainer one may be believed in its place, as *Laws* says. Behind a law stand, in brackets, those of its clauses that are meant. *Only on the way to X*: who believes X by its law may pass over this.
"""

LAWS = """
Each is the contract of a public function that does nothing, or a clause of one that does something. A law needs no belief: it is proved. Who takes its words in the place of a definition believes the law's own definitions, of which the first ones are shown here and the others stand in `crates`; what it wants of stores, rows and settings (`IsStore`, `AreOrdered`, `IsSound` and so on) holds of those of a run.
"""

LIBRARIES = """
The libraries state themselves what these names mean, in their own `specs/`; that is believed too. The numbers are of what the names rest on, in the kit of `rt`; `logic` is the lists and numbers below all of them. What is built into the checker counts nothing.
"""
