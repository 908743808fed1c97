//! The texts of --help.

pub const PLAN: &str = "\
usage: ./plan MODEL HORIZON [--nodes N]                   the plan of a site, as a listing
       ./plan MODEL HORIZON --at STATE [--page]           value and action at a state, for each number of steps
       ./plan MODEL HORIZON MASK L1 .. D [--page]         the same, the state in numbers
       ./plan check MODEL                                 accepted, or why not
       ./plan show MODEL                                  the model in words
       ./plan show --text MODEL                           the model as text, to be changed and imported
       ./plan find MODEL NAME                             the action that carries a name
       ./plan picture MODEL HORIZON --along LEVEL .. -o FILE
                                                          values and actions drawn over one level or two
       ./plan --peaks MODEL HORIZON                       the nodes that loading and each action need
       ./plan prune MODEL HORIZON                         the nodes without the paths that no state can take
       ./plan --sure E MODEL STEPS STATE                  whether the best action stays so where rewards move by up to E
       ./plan --two MODEL MODEL STEPS --at STATE --and STATE
                                                          two sites that share nothing: both actions, one total
       ./plan --to-new OLD NEW                            a model of the old form, which begins with 01, made new
       ./plan --to-old NEW OLD                            and the way back
       ./plan --import TEXT MODEL                         the bytes of a model that is written as text
       ./plan VERB --help                                 more about a verb

HORIZON is the number of steps, 1 to 8. MODEL is a file with a model's bytes, or with a model written as text, which begins
with the word 'site' (docs/TEXT-MODELS.md).

  --at \"L1=39/2 C1\"   the state: levels as 12, -3/4 or 19.5 (0 if not named), C1 for a condition that holds, !C1 for one
                      that does not (as if not named)
  MASK L1 .. D        the state: bit i-1 of MASK for condition i, each level's numerator, the common denominator
  --page              the page for the pump house wall: steps, value rounded downward, action
  --nodes N           tables of N nodes; if not given, sizes from 1,024 to 65,535 are tried in turn
  --raw               a refusal as 'R number place' on standard output, as the listing program has it

A value is 'none' where whatever is done has a chance of a forbidden action within the steps.
Exit status: 0 done; 1 refused, with the reason on standard error; 2 a fault in the call, as a file that is not there.
A model whose file has a verb's name is given with a path, as ./show.
";

pub const CHECK: &str = "\
usage: ./plan check MODEL [--raw]

Says whether the planner accepts the model. If it does not: the refusal's number and place, the command there, the rule
that it breaks, and advice. With --raw: 'R number place', 'R 0 0' for an accepted model.
";

pub const SHOW: &str = "\
usage: ./plan show [--text] MODEL [--raw]

Prints the model in words, one command to a line with its offset in the file. Below each reward, chance, next level and
end worth stands its diagram: 'if' a test or condition, 'then' the branch for yes, 'else' the other. C1 is a condition now, N1
one of the next step; 'forbidden' is where an action must not be taken. A refused model is shown as far as it can be read,
and then its refusal.

  --text        the model as docs/TEXT-MODELS.md has it: importing this text gives a model of the same values. A model whose
                diagrams branch on both sides again and again has no text that fits, which is said then
";

pub const FIND: &str = "\
usage: ./plan find MODEL NAME [--raw]

Prints the number of the action that carries the name. Trailing spaces do not count. Refused with 18 if no action carries
it, with 19 if several do.
";

pub const PEAKS: &str = "\
usage: ./plan --peaks MODEL HORIZON [--nodes N] [--raw]

Prints how many nodes the tables have to hold: while the model is loaded, and at most over the operations of each action in
all stages, each with its share of the largest. Tables of the largest are just enough to solve the model.
";

pub const PRUNE: &str = "\
usage: ./plan prune MODEL HORIZON [--paths] [--seconds N] [--nodes N] [--raw]       (or ./plan --prune ..)

Solves the model, looks for paths of the plan that no state can take, since the tests on the way contradict each other, and has
the library cut them off, until none is left or the time is up. Prints how many nodes each stage and the plan had and has, and
how many paths were cut off. No value and no action changes. Where it takes long, standard error says how far it is.

  --paths       each path as it was sent: P, the stage, the turns (1 high, 0 low), a multiplier for each linear test
  --seconds N   looks for at most N seconds, up to 86400; if not given, 60. What was cut off until then counts
  --nodes N     as for ./plan; a path that needs more is left alone

Nodes that stages share count in each of them, and once in the plan. A path is left alone as well if its smallest multipliers
do not fit 32 bits.
";

pub const SURE: &str = "\
usage: ./plan --sure E MODEL STEPS --at STATE [--raw]
       ./plan --sure E MODEL STEPS MASK L1 .. D [--raw]

Works the state out with so many steps left, 1 to 8, and prints the best action, whether it is sure, and by how much it leads the
next one. It is sure if it leads by more than 2 x STEPS x E: then it is best, alone, for every model with the same chances, next
levels, end worth and forbidden leaves whose rewards differ nowhere by more than E. The value moves by at most STEPS x E, sure or
not. E is a whole number, 0 or more. The time grows steeply with the steps.
";

pub const TWO: &str = "\
usage: ./plan --two MODEL MODEL STEPS [--at STATE] [--and STATE] [--nodes N] [--raw]

Two sites that share no water and no condition, as one: for each number of steps up to STEPS, 1 to 8, the best expected total
of both and the action of each. Both models have one weight total W, which is refused with 26 otherwise; the same model may
stand on both sides.

  --at STATE    the first site's state, as for ./plan; --and STATE the second's. Levels and conditions that are not named are 0
                and do not hold. The levels of both are brought over one denominator
  --nodes N     as for ./plan, for each site's tables

A total is 'none' where either site has none.
";

pub const TO_NEW: &str = "\
usage: ./plan --to-new OLD NEW [--raw]

Writes the model of the file OLD, which is of the old form (its first byte is 01), to the file NEW in the form that the
planner reads (02), command by command. Values and actions stay the same, and --to-old gives the old bytes again. A model
that is refused, with the old form's rules and offsets, is not written. A file NEW that is there already stays as it is.
";

pub const TO_OLD: &str = "\
usage: ./plan --to-old NEW OLD [--raw]

Writes the model of the file NEW to the file OLD in the old form, for a unit that reads no other. Refused with 20 if the
model does not fit that form: more than 4 levels, more than 8 actions, more than 65,535 bytes once written, or a forbidden
leaf (13). A file OLD that is there already stays as it is.
";

pub const IMPORT: &str = "\
usage: ./plan --import TEXT MODEL [--raw]

Writes the bytes of the model that the file TEXT has as text to the file MODEL. A text outside the grammar is refused with 24,
and the line and column of the first byte that no text can have there are shown. A file MODEL that is there already stays as it
is. All other verbs read a text as well, wherever they read a model.
";

pub const PICTURE: &str = "\
usage: ./plan picture MODEL HORIZON --along L1[=FROM..TO] [L2[=FROM..TO]] [--at STATE] -o FILE.svg
       ./plan picture .. --html -o FILE.html       a page with all settings of the conditions side by side
       ./plan picture .. --table                   the numbers that would be drawn, as text

Over one level: for each number of steps the value, and the action, cut exactly where the plan's tests change. A full dot and a
square bracket mark the side that a break point belongs to. Over two levels: a map of actions for each number of steps, cut
exactly by the lines of the tests.

  --along       the free level or levels, with a range; without one the range shows every break point
  --at STATE    the other levels and the conditions, as for ./plan; 0 and 'no' where not named
  --nodes N     as for ./plan

Each number is read once more from the tables, as a value at a state, before anything is written.
";
