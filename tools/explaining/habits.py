"""Habits of Rust, C and RTIC: what people write at the place of a refusal, and what is written for it here.

Each row: the tokens before the place, the tokens from the place on, what is said, and perhaps its proof (trials.py):
a row that can be meant otherwise is told only where that holds of the text. What is said states what holds, with a
change behind ` => ` (advice.py). Tokens are joined by one space; the first
pattern ends at the place, the second begins there. `<x>` is the group x of either, `@` in the first the sign after
which a statement begins.
"""
import re

from .advice import advised
from .marks import BEGINS, COMMENT
from .tokens import WORDS, tokens_of
from .trials import is_declared, is_glued, is_new, is_nothing, is_prefix, is_requested, is_strange, is_unit

OPPOSITE = {"==": "!=", "!=": "==", "<": ">=", ">=": "<", ">": "<=", "<=": ">"}
OTHER_NAME = rf"(?!(?:{'|'.join(sorted(WORDS))})\b)[A-Za-z_]\w*"
OTHERS = r"(?:match|switch|while|return|unless|when|do|try|static|const|var|mut|await|async|auto|yield|el\w+|int|bool)"
OPERAND = r"(?:[=(,+*/%&|^<>-]|emit|if)"
STATEMENT = r"(?<!interrupts )(?<!shared )(?<!local )[;{}]"
TYPE = r"(?:[ui](?:8|16|32|64|128|size)|bool|char|f32|f64|int|str|String)\b"
CALL = r"(?:\w+ : : )*"
BEFORE_CAST = r"(?:(?<![\w)] )|(?<=\bemit )|(?<=\bif ))"
CONTEXT = r"(?:cx|ctx|c|_cx|_c|self|context)"
NO_TYPES = "there are no types, every value is a number of 32 bits => ~: <t>"
NO_CONTEXT = "bodies get no context: resources are used by their names"
NO_LOOP = "there is no `<w>`: a loop is `for i in 0..8 { .. }`, and the body of `idle` runs again and again"
NO_WHILE = (
    "there is no `<w>`: a loop is `for i in 0..8 { .. }`, between two numbers, with an `if` in it for a condition, and "
    "the body of `idle` runs again and again"
)
# where a name comes, and no value
QUOTABLE = (
    r"(?:\bbinds =|\b(?:shared|local|dispatchers) = \[(?: [^\]]*,)?|\b(?:pend|lock|spawn|app|task|with)"
    r"|\b(?:interrupts|shared|local) \{(?: [^}]*,)?)$"
)
UNQUOTED = "a name has no quotes round it => <x>"
NO_TEXTS = "there are no texts and characters: `emit` shows a number"
NO_MACROS = "there are no macros: `emit N;` shows a number in the trace"
NUMERAL = "a number is decimal digits, or `0x` and hexadecimal ones: no `_`, no `0b`, no `0o`"
COMPARED = "there is no `<w>`: a comparison is 0 or 1, and `(a == b) <o> (c < d)` joins two"
ONE_NUMBER = "a resource or a variable is one number, and has no fields"
LISTED = "a local is declared in `local { <x> = 0 }`, and listed by its name alone"
LISTING = "an application begins with `app`; a listing, which `build` writes, begins with `image`"
BRACES = "no `;` comes after a block"
NOT_EQUAL = "not equal is `!=`, and the other signs that compare are `==`, `<`, `<=`, `>` and `>=`"
COMPARE = "the signs that compare are `==`, `!=`, `<`, `<=`, `>` and `>=`"
ROW, NAMED = "a row is `a = 5`", "an interrupt is named as `interrupts { I = 5 }` declares it"
LETTERS = "names have letters, digits and `_`"
HEXADECIMAL = "a hexadecimal number begins with `0x` => 0x<x>"
ONE_FILE = "an application is one file, and takes in no other"

NO_WFI = "without `idle` the core waits by itself while nothing runs"
NO_CHANNELS = "there are no channels: each software task has a queue of its own, `task t(capacity = 4) with x { .. }`"
NO_FRAME = "nothing is round the declarations, and no brace closes them"
SERVED = "a task serves an interrupt: `task t(binds = I) { .. }`"
NO_DELAY = "no body waits: `spawn_after(d) t(..);` goes on in a task d ticks later"
NO_PINS = "a body sets and reads no pin or register: `emit N;` shows a number in the trace"
NO_MASKS = "nothing masks all interrupts: `lock a { .. }` holds off those who share the resource `a`"
VARIABLE = "a variable of one body is declared in `local { <x> = 0 }`, one of several in `shared { <x> = 0 }`"
BLOCKS = "what depends on an `if` goes in braces: `if a { .. } else { .. }`"
RESOURCES = "resources are declared in `shared { a = 0 }` and `local { n = 0 }`"
BY_NAME = "the values of a message have no names, and come in their order"
DISPATCHERS = "interrupts for software tasks are named in the first declaration: `dispatchers = [SSI0]`"
# a type of one word before a variable; of several, the place is behind the first
FIRST_TYPES = [
    r"(?:int|unsigned|u?int\d+_t|[ui]\d+|bool|char|long|short|float|double|var|const|static|volatile|auto|signed|uint"
    r"|byte)"
]
C_TYPE = (
    r"(?:(?:volatile|static|extern|const|unsigned|signed|long|mut|pub|register) )*"
    r"(?:int|unsigned|u?int\d+_t|[ui](?:8|16|32)|bool|char|long|short|float|double|let|var|static|mut|auto)"
)
DELAYS = r"(?:HAL_Delay|v?[Tt]askDelay(?:Until)?|osDelay|delay\w*|sleep\w*|wait\w*|_delay_\w+|msleep|usleep|nanosleep)"
MASKS = (
    r"(?:_*(?:disable|enable)_(?:irq|interrupts?)|noInterrupts|interrupts|cli|sei|taskENTER_CRITICAL|taskEXIT_CRITICAL"
    r"|(?:enter|exit|begin|end)_critical\w*|critical_section|portDISABLE_INTERRUPTS|portENABLE_INTERRUPTS)"
)
UNITS = r"(?:ticks|cycles|nanos|micros|millis|secs|minutes|hours|Hz|kHz|MHz|ns|us|ms|s|hz|khz|mhz)"
CLOCKS = r"(?:millis|micros|HAL_GetTick|clock|get_?(?:tick|time|ticks)\w*|xTaskGetTickCount|time|ticks|now_ms)"
REQUESTS = (
    r"(?:\w*irq_?(?:set_?)?pend\w*|\w*pend\w*irq\w*|NVIC_SetPendingIRQ|NVIC_SetPending|set_pending|trigger\w*|raise_irq"
    r"|request_irq|generate_interrupt)"
)
PINS = (
    r"(?:digital(?:Write|Read)|analog(?:Write|Read)|HAL_\w+|gpio\w*|GPIO\w*|pinMode|(?:set|clear|toggle|read|write)_?"
    r"(?:pin|led|port|reg|register|high|low)\w*|led_?(?:on|off|toggle)\w*|(?:read|write)[lbw]?)"
)
LATER = (
    r"(?:after|later|every|defer|periodic\w*|schedule\w*|set_?[Tt]imeout|start_?[Tt]imer\w*|call_after|run_after"
    r"|post_?delayed)"
)
QUEUES = r"(?:x?Queue\w*(?:Send|Overwrite)\w*|osMessage\w*(?:Put|Send)\w*|k_msgq_put|x?\w*BufferSend\w*)"
RECEIVES = r"(?:x?Queue\w*(?:Receive|Peek)\w*|osMessage\w*Get\w*|k_msgq_get|x?\w*BufferReceive\w*)"
SEMAPHORES = (
    r"(?:x?Semaphore\w+|os(?:Mutex|Semaphore)\w+|k_(?:mutex|sem)_\w+|pthread_mutex_\w+"
    r"|(?:mutex|sem|semaphore|spin|spinlock)_?(?:[Ll]ock|[Uu]nlock|[Ww]ait|[Tt]ake|[Gg]ive|[Aa]cquire|[Rr]elease)\w*)"
)
CREATES = r"(?:xTaskCreate\w*|osThread(?:New|Create)\w*|k_thread_create|vTaskStartScheduler|osKernelStart)"
FUNCTIONS = [
    (r"\w*(?:TO|to)_?(?:TICKS|ticks)\w*|K_(?:MSEC|SECONDS|TICKS)",
     "a delay is a number of ticks: `spawn_after(100) ..`"),
    (QUEUES, "a queue belongs to a software task: `spawn t(..);` puts a message into it"),
    (RECEIVES, "a message starts its task, and its values are the names after `with`"),
    (SEMAPHORES, "a resource is held for a block, `lock a { .. }`, and nothing else is taken and given"),
    (CREATES, "nothing creates or starts a task: it runs when its interrupt or a message comes"),
    (r"_*wf[ie]|__WF[IE]", NO_WFI), (DELAYS, NO_DELAY), (LATER, "a message for later is `spawn_after(d) t(..);`"),
    (MASKS, NO_MASKS),
    (CLOCKS, "the time in ticks is the value of `let x = now;`"),
    (REQUESTS, "an interrupt is requested by `pend I;`"), (PINS, NO_PINS),
]
ENDED = "a statement ends with `;`"
WORD_SIGNS = {
    "mod": "%", "div": "/", "xor": "^", "shl": "<<", "shr": ">>", "rem": "%", "eq": "==", "ne": "!=", "is": "==",
    "equals": "==", "isnt": "!=", "gt": ">", "lt": "<",
}

# letters directly behind a number
GLUED = [
    (r"\b0x[0-9a-fA-F]+$", r"(?![uUlL]+\b|[ui]\d)[G-Zg-z_]\w*", "hexadecimal digits are 0 to 9 and A to F"),
    (r"\b(?P<n>\d\w*)$", r"(?:[uUiI](?:8|16|32|64|128|size)?[lL]*|[lL]+|f32|f64)\b",
     "a number has no suffix => <n>"),
    (r"\b0+$", r"(?P<x>[0-9A-Fa-f]+)[hH]\b", HEXADECIMAL),
    (r"\b(?P<n>\d+)$", r"(?P<x>[0-9A-Fa-f]+)[hH]\b", HEXADECIMAL.replace("<x>", "<n><x>")),
    (r"\b(?P<w>\w+_after) \( [^;]*\b(?P<n>\d+)$", r"(?:ns|us|ms|s|sec|min|millis|secs)\b",
     "a delay is a number of ticks, and has no unit: `<w>(100) t(a, b);`", is_unit),
    (r"\b(?P<n>\d+)$", r"(?:ns|us|ms|s|sec|min|millis|secs)\b",
     "a number has no unit, and time is counted in ticks", is_unit),
    (r"\b\d\w*$", r"_\d\w*|[eE]\d+\b", NUMERAL),
    (r"\b0x?[0-9a-fA-F]*$", r"_\w*|[bo]\d\w*|[xX]\w*", NUMERAL),
]

# what a text is that is no application
OTHER_TEXTS = [
    (r"^$", r"image \d", LISTING),
    (r"^$", r"\d+ \w", "an application begins with `app`; a line of a trace begins with a number"),
    (r"^$", r"(?P<w>step|tick|pend|device)\b",
     "an application begins with `app`; a line of a script begins with `<w>`"),
    (r"^$", r"every\b", "an application begins with `app`; a line of limits begins with `every`"),
]

SYNTAX = [
    *OTHER_TEXTS,
    (r"\b(?P<w>\w+_after) \( [^;]*\b(?P<n>\d+)$",
     r"(?:[num]?s|secs?|min|milli\w*|micro\w*|seconds?|ticks?|cycles?|steps?)\b",
     "a delay is a number of ticks, and has no unit: `<w>(100) t(a, b);`", is_unit),
    (r"\b(?P<n>\d+)$", r"(?:[num]s|sec|min|millis|secs|ticks|cycles)\b",
     "a number has no unit, and time is counted in ticks", is_unit),
    (r"^$", r"(?P<w>use|mod|extern|pub|fn|struct|const|static)\b",
     "no declaration begins with `<w>`: an application begins with `app name(bits = 4);`"),
    *[(rf"(?<!\S){sign}$", rf"{sign}(?: |$)",
       f"`{sign}{sign}` is one sign, without a blank in it =>! {sign}{sign}") for sign in "<>"],
    *[(rf"& {word}(?: ;)?$", r"(?:;|[\w(])", f"`&{word};` is `{sign}` as web pages have it => {sign}")
      for word, sign in (("gt", ">"), ("lt", "<"), ("amp", "&"))],
    (r"<$", r">", NOT_EQUAL),
    (r"!=$", r"=(?: |$)", NOT_EQUAL + " => !="),
    (r"(?:^| )(?P<s>[<>])$", r"=(?: |$)", "`<s>=` is one sign, without a blank in it =>! <s>="),
    (r"(?:\bemit|\bpend|\bspawn|@ \w+ =) [^;{}]*[\w)]$", r"(?:if|unless|when)\b[^;{}]*;",
     "the condition comes first, and the statement in its block: `if a { .. }`"),
    (r"\bemit$", r"\[", "an `emit` has no brackets: `emit a;`"),
    (r"\b(?:shared|local) =$", r"& (?P<x>\w+)", "a list goes in brackets, as `[a, &b]` => [&<x>]"),
    (r"\bif [^;{}]*$", r"/ =(?: |$)", NOT_EQUAL),
    (r"\bif [^;{}]*$", r"= !(?: |$)", COMPARE),
    (r"\b(?:if|emit) [^;{}]*$", r"= >(?: |$)", COMPARE),
    (r"\b(?:if|emit) [^;{}]*$", r"= <(?: |$)", COMPARE),
    *[(rf"\b(?P<x>[A-Za-z_]\w*) [{sign}]$", rf"[{sign}] (?:[;),{{*/%&|^]|<<|>>|[=!<>]=|[<>])",
       f"there is no `{sign}{sign}`: `a = a {sign} 1;` is a statement of its own") for sign in "+-"],
    (r"\*$", r"\*", "there is no `**`: a square is `a * a`, and a power of 2 is `1 << n`"),
    (r"(?:\w|\))$", rf"as (?:u|i)8\b", "there are no types: the low 8 bits of a value are `value & 255`"),
    (r"(?:\w|\))$", rf"as (?:u|i)16\b", "there are no types: the low 16 bits of a value are `value & 65535`"),
    (r"(?:\w|\))$", rf"as (?P<t>{TYPE})", NO_TYPES.replace(": <t>", "as <t>")),
    (rf"{BEFORE_CAST}\( (?:unsigned |signed )?(?:u?int8_t|[ui]8|char|byte) \)$", r"[\w(]",
     "there are no types: the low 8 bits of a value are `value & 255`"),
    (rf"{BEFORE_CAST}\( (?:unsigned |signed )?(?:u?int16_t|[ui]16|short) \)$", r"[\w(]",
     "there are no types: the low 16 bits of a value are `value & 65535`"),
    (rf"{BEFORE_CAST}\( (?P<t>(?:unsigned |signed )?(?:{TYPE}|u?int(?:32|64)_t|long|unsigned)) \)$", r"[\w(]",
     NO_TYPES.replace(": <t>", "( <t> )")),
    (r"\bif$", r"let\b", "an `if` takes an expression and no `let`: what a spawn or a `cancel` answers is the value of "
     "a `let` before it, 1 or 0"),
    (r"[(,]$", r"resources = \[",
     "`resources = [..]` is `shared = [..]` here, or `local = [..]` for what one body alone uses"),
    (r"[(,]$", r"(?P<w>spawn|schedule) = \[",
     "each body may spawn every software task, and has no `<w>`"),
    (r"[;}]$", r'extern " C', DISPATCHERS),
    (r"[;}]$", r"(?!monotonic\b)\w*monotonic\w* (?:! )?[({]",
     "the timer of messages is declared by `monotonic(binds = I, priority = 3);`"),
    (r"[;}]$", rf"{C_TYPE} (?P<x>[A-Za-z_]\w*) \(",
     "there are no functions: only `init`, `idle` and tasks have bodies"),
    (r"[;}]$", rf"{C_TYPE} (?P<x>[A-Za-z_]\w*) (?:[=;:]|$)", VARIABLE),
    (r"[;}]$", r"resources? \{", RESOURCES),
    (r"[;}]$", rf"(?:handler|isr|ISR|irq|interrupt|IRQ_HANDLER|INTERRUPT) (?:\( )?"
     rf"(?P<x>{OTHER_NAME}?)(?:_vect|_IRQn|_IRQHandler|_irq)?\b(?! [=,;])",
     "a task serves an interrupt: `task t(binds = <x>) { .. }`", is_requested),
    (r"[;}]$", rf"(?:handler|isr|ISR|irq|interrupt|IRQ_HANDLER|INTERRUPT) (?:\( )?{OTHER_NAME}(?! [=,;])", SERVED),
    (r"@$", r"(?P<o>[+-]) (?P=o) (?P<x>[A-Za-z_]\w*)",
     "there is no `<o><o>`, and `a = a <o> 1;` is a statement => <x> = <x> <o> 1"),
    (r"\bwith \w+(?: , \w+)*$", r"\(", "the options come before `with`: `task t(priority = 1) with x { .. }`"),
    (r"\bwith \w+ (?:, \w+ )*,$", r"(?P<w>binds|priority|capacity|shared|local) =",
     "the options come before `with`: `task t(priority = 1) with x { .. }`"),
    (r"\b(?:spawn|pend)$", r"init\b", "`init` runs by itself, once at the beginning"),
    (r"\b(?:spawn|pend)$", r"idle\b", "`idle` runs by itself, whenever nothing else does"),
    (r"@ unlock$", r"[\w(]", "there is no `unlock`: a lock ends with its block, `lock n { .. }`"),
    (r"@ (?:unpend|clear|unset)$", r"[\w(]",
     "no request of an interrupt is withdrawn; `cancel` withdraws an armed message"),
    (r"\bpriority =$", r"[A-Za-z_+-]", "`priority` wants a number, from 1, the lowest of a task"),
    (r"\b(?P<w>capacity|bits) =$", r"[A-Za-z_+-]", "`<w>` wants a number"),
    (r"\bbinds =$", r"(?P<n>\d+)",
     NAMED + ", and `binds = I` takes it"),
    (r"\b(?:interrupts|shared|local) \{(?: [^}]*,)?$", r"(?P<n>\d+) = (?P<x>[A-Za-z_]\w*)",
     "the name comes first =>! <x> = <n>"),
    (r"\b(?:interrupts|shared|local) \{(?: [^}]*,)? (?:lock_free )?(?P<x>\w+)$", r"- (?P<y>\w+) =",
     LETTERS),
    (r"\bfor \w+ in \w+ \.\. \w+$", r"\.\.|,|step\b|by\b",
     "a loop counts by 1: `for i in 0..5 { .. }` has the turns 0 to 4"),
    (r"\b[A-Z][A-Z0-9_]* -$", r">", NO_PINS),
    (r"[A-Za-z_]\w* -$", r"> [A-Za-z_]", ONE_NUMBER, is_prefix),
    (r"@ (?P<w>unsafe|async|try|static|mut)$", r"\{", "there is no `<w>`"),
    (r"(?:^|(?<!\w))(?:__)?asm(?:__)?$", r"\(|volatile\b",
     "no instruction of the processor can be written: bodies have the statements of the language alone"),
    (r"(?:^|(?<!\w))(?P<w>Some|Ok|Err)$", r"\(", "there is no `<w>`: each value is a number"),
    (r"\b(?:shared|local|dispatchers) =$", r"\( [A-Za-z_]\w*", "a list goes in brackets: `[a, b]`"),
    (r"\bspawn (?P<x>\w+)$", r"= (?P<t>\w+) \(",
     "what a spawn answers is the value of a `let`: `let x = spawn t(a, b);`"),
    (r"\bspawn \w+ \( (?:[^;]*, )?\w+$", r"=(?: |$)", BY_NAME),
    (r"=$", r"\+ (?P<n>\w+)\b(?! \w)",
     "there is no sign before a number, and `a = a + 1;` adds", is_glued),
    (r"^app [^;]*; interrupts$", r"[(\[]", "rows go in braces: `interrupts { .. }`"),
    *[(rf"(?:^|(?<!\w)){name}$", r"\(", sentence) for name, sentence in FUNCTIONS],
    (rf"@ {DELAYS}$", r"\w", NO_DELAY),
    (r"@ (?:cout|cerr|clog|stdout)$", r"<<", "to show a number in the trace is `emit N;`"),
    (r"@ (?:print\w*|yield|echo|show|display|log|write|output|puts|trace)$", r"\w",
     "to show a number in the trace is `emit N;`"),
    (r"\binterrupts \{[^}]*=$", r"-", "an interrupt has a number from 0 to 495, without a sign"),
    (r"\b(?:interrupts|shared|local) \{$", r"\|", "a row is `a = 5`, and commas separate the rows"),
    (r"\b(?:interrupts|shared|local) \{[^}]*=$|[(,] \w+ =$", r">", "a value comes after `=` =>! ="),
    (r"\bdispatchers = \[(?: [^\]]*,)?$", r"(?P<n>\d+)\b",
     NAMED + ", and `dispatchers = [I]` takes it"),
    (r"\b(?:interrupts|shared|local) \{(?: [^}]*,)?$", r"let\b",
     "a resource is declared by its name and its first value, without `let`"),
    (r"@$", r"with\b", "`with` names the arguments of a task; a lock is `lock a { .. }`"),
    (rf"(?<=[;{{}}] )(?P<x>(?!{OTHERS}\b){OTHER_NAME})$", r"(?P<w>pend|emit|lock|cancel|spawn)\b(?! =)",
     "the word comes first =>! <w> <x>"),
    (r"@ \w+$", r"(?:, \w+ )+= ", "an assignment sets one variable"),
    (r"\bpend \w+$", r"(?:priority|capacity|binds|shared|local|with)\b(?! \w+ =)",
     "a pend has the interrupt alone: what belongs to its task is in the task's head"),
    (rf"(?<=[;{{}}] )(?P<x>{OTHER_NAME})$", r"(?P<y>(?:, \w+ )+)lock\b", "the word comes first: `lock a, b { .. }`"),
    (r"\bpend \w+$", r"\( \)", "a pend has no parentheses: `pend I;` => ~( )"),
    (r"\bpend \w+$", r"\(", "a pend has no parentheses: `pend I;`"),
    (r"\bfor (?:each|all|every|int|let|mut)$", r"[A-Za-z_]", "the form is `for i in 0..8 { .. }`"),
    (rf"\blet (?!mut$)(?:{TYPE}|{C_TYPE})$", r"(?P<x>[A-Za-z_]\w*)",
     "there are no types, and a `let` has a name alone => let <x>",
     is_new),
    (r"@ static$", r"let\b", "there is no `static`: a variable of a body that lasts is declared in `local { n = 0 }`"),
    (r"@ (?:atomic\w*|critical\w*|synchronized|mutex\w*|guard\w*|exclusive|protected|locked|with_lock|interrupt_free)$",
     r"[({]", "a resource is held for a block: `lock a { .. }`"),
    (r"@ when$", r"[\w(]", "there is no `when`: what depends on a value is `if a { .. }` => if"),
    (r"@ return$", r"[\w(]", "no body hands back a value"),
    (r"@ unless$", r"[\w(]", "there is no `unless`: `if a == 0 { .. }` does it where a is 0"),
    (r"\b(?:shared|local) \{ [^}]*=$", r"\[", "a resource is one number, and there are no arrays"),
    (r"@ static$", rf"(?:mut )?(?:{C_TYPE} )?(?P<x>[A-Za-z_]\w*)", VARIABLE),
    (r"\bspawn \w+$", r"\[", "the form is `spawn t(a, b);`"), (r"\bcancel \w+$", r"\[", "the form is `cancel t(h);`"),
    (r"", r"/ \*", COMMENT, is_prefix),
    (r"/$", r"\*", COMMENT, is_glued),
    (r"@ (?P<x>\w+)$", r"(?P<o>\+|-|\*|/|%|&|\||\^|<<|>>) =(?= \w+ [;}]| [;}]|$)",
     "there is no `<o>=`, and `a = a <o> b;` assigns => <x> = <x> <o>", is_prefix),
    (r"@ (?P<x>\w+)$", r"(?P<o>\+|-|\*|/|%|&|\||\^|<<|>>) =(?: |$)",
     "there is no `<o>=`, and `a = a <o> (b + c);` assigns", is_prefix),
    (r"@ (?P<x>\w+)$", r"(?P<o>[+-]) (?P=o)",
     "there is no `<o><o>`, and `a = a <o> 1;` is a statement => <x> = <x> <o> 1", is_prefix),
    (r"let mut$", r"\w", "every variable can be assigned => ~mut"),
    (r"\b(?:shared|local) \{ (?:[^}]*, )?mut$", r"\w", "every resource can be assigned => ~mut"),
    (rf"\b(?:shared|local|interrupts) \{{ (?:[^}}]*, )?(?P<t>{TYPE})$", r"(?P<x>\w+)",
     "there are no types: " + ROW + " => <x>"),
    (rf"\b(?:shared|local) \{{ (?:[^}}]*, )?(?:static|volatile|const|unsigned|signed|atomic|pub|{TYPE})$",
     rf"(?:{C_TYPE} )?(?P<x>[A-Za-z_]\w*) =", "there are no types: " + ROW + " => <x> ="),
    (r"\b(?:shared|local) \{ (?:[^}]*, )?(?P<x>\w+)$", r"lock_free [A-Za-z_]\w* =",
     "a row is `lock_free a = 0`"),
    (r"\b(?:shared|local) \{ (?:[^}]*, )?(?P<x>\w+)$", r"lock_free\b",
     "`lock_free` comes before the name: `lock_free a = 0`"),
    (r"\block_free$", r"\( (?P<x>\w+) \)", "`lock_free` has no parentheses: `lock_free a = 0` => <x>"),
    (r"\b(?:shared|local) \{ [^}]*=$", r"(?P<x>None|NULL|null|nullptr|nil|undefined|Default)\b",
     "there is no `<x>`: a first value is a number, as 0"),
    (r"\b(?:shared|local) \{ [^}]*=$", r"(?P<x>Some|Mutex|RefCell|Cell|Atomic\w+|Wrapping|Option|Vec|Queue)\b",
     "there is no `<x>`: a first value is a number, as 0"),
    (r"\b(?:shared|local) \{ [^}]*=$", r"-", "a first value has no sign: -1 is 0xffffffff"),
    (r"\bnow$", r"\(", "no parentheses come after `now` => ~( )"),
    (r"(?:@|=) spawn_at$", r"\(", "there are no messages for an instant: `spawn_after(d) t(..);` waits for d ticks"),
    (r"(?:@|=) reschedule_at$", r"\(",
     "no message is moved to an instant: `reschedule_after(d) t(h);` moves it to d ticks from now"),
    (r"\b(?P<w>spawn|cancel|\w+_after)\b[^;{}]*\)$", r"- > (?P<x>\w+)",
     "what `<w>` answers is the value of a `let`, with the variable in front"),
    (r"\)$", r"- >", "a body hands back nothing"),
    (r"\btask$", r"(?P<w>idle|init)\b", "`<w>` is no task => <w>"),
    (r"(?:[=(,]|emit|if)$", r"\* \(", NO_PINS),
    (r"(?:^|(?<!\w))(?P<t>u?int|[ui](?:8|16|32|64|size)|u?int\d+_t|unsigned|float|double|bool|char|word|long)$",
     r"\(", NO_TYPES.replace(": <t>", "<t>")),
    (r"(?:\)|\w|\])$", r"(?:do|begin)\b(?! \{)", "a block goes in braces: `{ .. }`"),
    (r"^app [^;]*; interrupts$", r"=", "rows go in braces: `interrupts { I = 5, J = 7 }`"),
    (r"\bshared \{ (?:[^}]*, )?(?P<x>\w+) = \w+$", r"(?:\( )?lock_free\b(?! \w)",
     "`lock_free` comes before the name: `lock_free a = 0`"),
    (r"[;}]$", r"(?:loop|main|setup|background|forever|super_?loop)\b",
     "what runs once at the beginning is `init { .. }`, and what runs while nothing else does `idle { .. }`"),
    (r"@ \w+$", r"< -", "to assign is `=` => ="),
    (r"@ [a-z_]\w*$", r"- > (?P<y>\w+)",
     "bodies get no context, and nothing has fields: resources are used by their names",
     is_strange),
    (r"@ (?P<v>\w+)$", r"- > \w+", NO_PINS, is_strange),
    (r"\bpend \w+$", r",", "a `pend` names one interrupt"),
    (r"\bemit (?:\( )?[^;{}(]*$", r", (?!\w+ =)", "an `emit` shows one number"),
    (r"(?:^|@ )(?P<w>while|until)$", r"[\w({]", NO_WHILE),
    (r"(?:^|@ )(?P<w>loop|do|repeat)$", r"[\w({]", NO_LOOP),
    (r"\bfor$", r"\(", "a loop is `for i in 0..8 { .. }`"),
    (r"\bfor \w+$", r"=", "a loop is `for i in 0..8 { .. }`"),
    (r"\.\.$", r"=", "there is no `..=`: the second bound is one more than the last turn's number"),
    (r"\bfor \w+ in$", r"\[|range\b|\w+ \(", "a loop is `for i in 0..8 { .. }`, and its two bounds are numbers"),
    (r"\btask (?P<t>\w+) \{$", r"(?P<w>binds|priority|capacity|shared|local) =",
     "options go in parentheses: `task t(priority = 1) { .. }`"),
    (r"\bfor (?P<x>\w+) in$", r"\( (?P<n>\d+) \.\. (?P<m>\d+) \)",
     "the bounds of a `for` have no parentheses => <n>..<m>"),
    (r"\bfor \w+ in(?: \w+ \.\.)?$", r"- (?P<n>\w+)",
     "a bound has no sign: it is a number from 0 on"),
    (r"\bfor \w+ in(?: \w+ \.\.)?$", r"[A-Za-z_(]",
     "the bounds of a `for` are numbers; inside it an `if` can pass over what is too many"),
    (r"\bfor (?P<x>\w+) in (?P<n>[1-9]\w*)$", r"\{ (?!\.\.)",
     "a loop has two bounds: `for i in 0..8 { .. }` has the turns 0 to 7"),
    (r"\bfor (?P<x>\w+) in \w+$", r"\{", "a loop has two bounds: `for i in 0..8 { .. }` has the turns 0 to 7"),
    (r"\bshared = \[ (?:[^\]]*, )?(?P<x>\w+)$", r"& [,\]]", "the `&` comes before the name => &<x>"),
    (r"\bshared = \[[^\]]*&$", r"& (?P<x>\w+)", "one `&` lists a resource for reading => &<x>"),
    (r"&$", r"\^ (?P<x>\w+)",
     "there is no `&^`: `a & (b ^ 0xffffffff)` has the bits of a that b has not => & (<x> ^ 0xffffffff)"),
    (r"&$", r"&", COMPARED.replace("<w>", "&&").replace("<o>", "&"), is_glued),
    (r"\|$", r"\|", COMPARED.replace("<w>", "||").replace("<o>", "|"), is_glued),
    (r"\block (?:\w+ , )*\w+$", r"(?:and|&|\+|with)(?: |$)", "commas separate the names: `lock a, b { .. }`"),
    (rf"\bwith (?:\w+ , )*(?:{TYPE}|{C_TYPE}|\w+_t)$", r"(?P<x>[A-Za-z_]\w*)", "there are no types => <x>"),
    (r"\bwith (?:\w+ , )*\w+$", r"(?:and|&|\+)(?: |$)", "commas separate the names: `with x, y`"),
    (r"\bwith (?:\w+ , )*\w+$", r"- >", "a body hands back nothing"),
    (r"\bwith (?:\w+ , )*\w+$", r"= \w+", "a value of a message has no first value"),
    (r"\blocal \{(?: [^}]*,)?$", r"lock_free\b",
     "`lock_free` is said of shared resources: a local one is of one body, and needs no lock"),
    (r"(?:\w|\))$", r"(?P<w>and|AND|And)\b(?= [\w(])", COMPARED.replace("<o>", "&")),
    (r"(?:\w|\))$", r"(?P<w>or|OR|Or)\b(?= [\w(])", COMPARED.replace("<o>", "|")),
    *[(r"\bnot$", rf"(?P<a>[A-Za-z_]\w*) {sign} (?P<b>\w+)(?= [{{;)])",
       f"there is no `not`, and where `a {sign} b` is 0, `a {other} b` is 1 => <a> {other} <b>")
      for sign, other in OPPOSITE.items()],
    (r"(?:\bif|\bemit|=) not$", r"(?P<x>[A-Za-z_]\w*)(?= [{;])",
     "there is no `not`: `(a == 0)` is 1 where a is 0 => <x> == 0"),
    (r"\bnot$", r"(?P<x>[A-Za-z_]\w*)(?= (?:\)|and\b|or\b))",
     "there is no `not`: `(a == 0)` is 1 where a is 0 => (<x> == 0)"),
    (r"\bnot$", r"[\w(]", "there is no `not`: `(a == 0)` is 1 where a is 0"),
    (r"\bspawn after \( (?P<d>[^;{}]*) \)$", r"(?P<t>[A-Za-z_]\w*)",
     "`spawn_after` is one word: `spawn_after(100) t(a, b);` => spawn_after(<d>) <t>"),
    (r"\breschedule$", r"after\b", "`reschedule_after` is one word: `reschedule_after(100) t(h);` => reschedule_after"),
    (r"\bspawn (?P<t>\w+) \([^;{}]*\)$", r"(?:after|in|at)\b", "a message for later is `spawn_after(100) t(a, b);`"),
    (r"\bspawn_after \( [^;{}()]*$", r",",
     "the form is `spawn_after(100) t(a, b);`: the delay alone is in the first parentheses"),
    (r"\breschedule_after \( [^;{}()]*$", r",",
     "the form is `reschedule_after(100) t(h);`: the delay, the task, and the handle"),
    (r"\b(?P<w>cancel|reschedule_after)(?: \( [^;{}()]* \))? \w+ \( [^;{}()]*$", r",",
     "`<w>` takes one handle"),
    (r"\belse$", r"if\b", "there is no `else if`: the second `if` is inside the block, `else { if a { .. } }`"),
    (r"@ (?P<w>elif|elsif|elseif)$", r"[\w(]",
     "there is no `<w>`: a second `if` is inside the block, `else { if a { .. } }`"),
    (r"\bif [^;{}]*(?<!=)$", r"=(?: |$)", "`=` compares nothing: " + COMPARE),
    (r"@ \w+$", r"==", "`==` compares, and `=` assigns =>! ="),
    (r"@ (?P<x>\w+) = (?P=x) (?P<o>\+|-|\*|/|%|&|\||\^|<<|>>)$", r"=(?: |$)",
     "there is no `<o>=`, and `a = a <o> b;` assigns"),
    (r"@ \w+ = (?:[^;{}]* )?[\w)]+$", r"=(?: |$)",
     "an assignment has no value and sets one variable, and to compare is `==`"),
    (r"\blet (?P<x>\w+) =$", r"lock\b(?: (?P<r>[A-Za-z_]\w*))?",
     "a lock has no value: a variable is assigned inside, `let x = 0; lock a { x = a; }`"),
    (r"\b(?:let|for|with) (?P<x>\w+)$", r"- (?P<y>\w+)(?= =|$| in\b| \{| ,)",
     LETTERS),
    (r"@ (?P<x>\w+) =$", r"lock (?P<r>[A-Za-z_]\w*) \{",
     "a lock has no value: a variable is assigned inside, `lock a { x = a; }`"),
    (r"\blet (?P<x>\w+)$", r";", "a variable begins with a value: `let x = 0;`"),
    (r"\blet$", r"\( [^;]*= (?:\w+ : : )*\w*[Cc]hannel\w*\b|\( [^;]*= [^;]*\bsplit\b", NO_CHANNELS),
    (r"\blet$", r"\(", "a `let` declares one variable"),
    *[(rf"@ {types}$", r"(?P<x>[A-Za-z_]\w*)",
       "there are no types, and a variable is declared by `let x = 1;` =>! let <x>", is_new) for types in FIRST_TYPES],
    *[(rf"@ {types}$", r"(?P<x>[A-Za-z_]\w*) ;", "there are no types, and a variable begins with a value: "
       "`let x = 0;`", is_new) for types in FIRST_TYPES],
    *[(rf"@ {types}$", r"(?P<x>[A-Za-z_]\w*) =",
       "there are no types, and `<x>` is declared => <x> =", is_declared) for types in FIRST_TYPES],
    *[(rf"@ {types}$", r"[A-Za-z_]\w*", "there are no types: a variable is declared with `let`, and a value")
      for types in FIRST_TYPES],
    (r"@ (?P<w>return|break|continue|goto)$", r"[\w;(}]",
     "there is no `<w>`: a body and a loop run to their end, and an `if` leaves out what is not to run"),
    (r"(?:@|=) (?P<w>match|switch)$", r"[\w(]",
     "there is no `<w>`: a choice is `if a == 1 { .. } else { if a == 2 { .. } }`"),
    (r"\bemit$", r"if\b", "an `if` has no value: `if a { emit b; } else { emit c; }`"),
    (r"\blet \w+ =$", r"if\b", "an `if` has no value: `let x = 0; if a { x = b; } else { x = c; }`"),
    (r"=$", r"if\b", "an `if` has no value: `if a { x = b; } else { x = c; }`"),
    (r"\block$", r"\( (?:& )?(?:mut )?(?P<x>\w+) ,",
     "a lock has no parentheses: `lock a, b { .. }`"),
    (r"\block$", r"\( (?:& )?(?:mut )?(?P<x>\w+)", "a lock has no parentheses: `lock a { .. }` => lock <x>"),
    (r"\bpend$", r"\( (?P<x>\w+) \)", "a pend has no parentheses: `pend I;` => pend <x>"),
    (r"\bspawn$", r"\( (?P<x>[A-Za-z_]\w*) \)",
     "the task's name comes before the parentheses: `spawn t(a, b);` => spawn <x>()"),
    (r"\bspawn$", r"\( (?P<x>[A-Za-z_]\w*) ,", "the task's name comes before the parentheses: `spawn t(a, b);`"),
    (r"\bspawn$", r"\(", "a spawn names its task before the parentheses: `spawn t(a, b);`"),
    (r"@ (?:printf|println|print|puts|hprintln|log)$", r"\(", "to show a number in the trace is `emit N;`"),
    (rf"@ (?P<f>{OTHER_NAME})$", r"\(",
     "there are no functions: a statement begins with a word of the language, or assigns",
     is_nothing),
    (r"[(,]$", rf"(?:mut )?{CONTEXT} [:,)]", NO_CONTEXT),
    (r"[(,]$", r"(?:mut )?\w+ : (?:\w+ : : )*Context\b", NO_CONTEXT),
    (r"\b(?:idle|init) \((?: \w+ ,)*$", r"(?P<x>[A-Za-z_]\w*) [,)]",
     "resources are listed: `shared = [a]`, or `local = [n]`"),
    (r"\btask (?P<t>\w+) \($", r"[A-Za-z_]\w*(?: [,):]|$)",
     "options have names, as `priority = 1`, and the values of a message come after `with`: "
     "`task t(priority = 1) with x { .. }`"),
    (r"\bwith$", r"\(", "no parentheses come after `with`: `with x, y`"),
    (r"\bwith$", r"\[", "no brackets come after `with`: `with x, y`"),
    (r"[(,]$", r"(?:args|arguments|params|parameters|inputs|message|msg|payload|takes) =",
     "the values of a message come after `with`: `task t(..) with x, y { .. }`"),
    (r"[;}]$", r"(?:K_\w+|OS_\w+|osThread\w*|osTimer\w*|TASK|THREAD|xTaskCreate\w*|PROCESS) \(",
     "a task is `task t(priority = 1) { .. }`, and nothing else makes one"),
    (r"\blocal = \[ (?:[^\]]*, )?(?P<x>\w+)$", r"=", LISTED),
    (r"\bshared = \[(?: [^\]]*,)? (?P<w>ref|const|readonly|in|read)$", r"(?P<x>\w+)",
     "there is no `<w>`: `&<x>` lists a resource for reading, `<x>` for reading and writing"),
    (r"\[[^\]]* & mut$|\[ mut$|, mut$", r"(?P<x>\w+)",
     "there is no `mut`: `<x>` lists a resource for reading and writing, `&<x>` for reading alone"),
    (r"@$", r"\( \w+ \. shared \. (?P<a>\w+) , \w+ \. shared \. (?P<b>\w+)",
     "a lock of several resources is `lock <a>, <b> { .. }` here"),
    (r"@$", r"\( Shared\b",
     "`init` hands nothing back: first values are in the declarations, or `init` assigns them"),
    (r"@$", r"\* (?:\w+ \. (?:local|shared) \. )?(?P<x>\w+) (?P<o>\+|-|\*|/|%|&|\||\^|<<|>>) =(?= \w+ [;}])",
     "there are no pointers and no `<o>=`: `a = a <o> b;` assigns => <x> = <x> <o>"),
    (r"@$", r"\* (?P<c>\w+) \. (?P<k>local|shared) \. (?P<x>\w+)",
     "there are no pointers, and a resource is assigned by its name => <x>"),
    (r"@$", r"\* (?P<x>\w+)", "there are no pointers, and a resource is assigned by its name => <x>"),
    (r"(?:[=(,+*/%|^<>-]|emit|if)$", rf"(?P<o>[*&]) (?:mut )?(?P<c>{CONTEXT}) \. (?P<k>\w+) \. (?P<x>\w+)",
     "bodies get no context, and a resource is used by its name => <x>"),
    (r"(?:[=(,+*/%|^<>-]|emit|if)$", r"(?P<o>[*&]) (?:mut )?(?P<x>[A-Za-z_]\w*)",
     "there are no pointers, and a resource is used by its name => <x>", is_prefix),
    (r"\b(?:spawn_after|reschedule_after) \($", r"-", "a delay has no sign: it is 0 or more ticks"),
    (r"(?:[=(,]|emit|if)$", r"(?P<o>[+-]) (?P=o) (?P<x>[A-Za-z_]\w*)",
     "there is no `<o><o>`: `a = a <o> 1;` is a statement of its own"),
    (r"(?:[=(,]|emit|if)$", r"- (?P<n>\w+)", "there is no sign before a value: `0 - <n>` wraps"),
    (r"[+*/%&|^<>-]$", r"- (?P<n>\w+)",
     "there is no sign before a value: `(0 - <n>)` wraps", is_prefix),
    (r"\block$", r"\| (?P<x>\w+)", "there are no closures: `lock a { .. }`"),
    (r"\block (?:\w+ , )*(?P<x>\w+)$", r"\(", "a lock has its block in braces: `lock a { .. }`"),
    (r"\block (?:\w+ , )*\w+$", r"; (?:\w+ [;,] )*\w+ \{", "commas separate the names: `lock a, b { .. }`"),
    (r"\block (?:\w+ , )*(?P<x>\w+)$", r";", "a lock holds for its block: `lock a, b { .. }`"),
    (r"\bbinds =$", r"\[", "`binds` names one interrupt, and each interrupt has a task of its own"),
    (r"\bpend$", r"(?P<n>\d+)", "an interrupt is named, not numbered: `pend I;`"),
    (r"\bspawn (?P<t>\w+)$", r"[;}]",
     "a spawn has parentheses, with the values in them if there are any: `spawn t(a, b);`"),
    (r"\bcancel (?P<h>\w+)$", r"[;}]",
     "a `cancel` names the task, and has the handle in parentheses: `cancel t(h);`"),
    (r"\b(?P<w>spawn_after|reschedule_after)$", r"(?P<n>\w+) (?P<t>[A-Za-z_]\w*)",
     "the delay goes in parentheses: `spawn_after(100) t(a, b);`"),
    (r"\blet (?P<x>\w+) = now$", r"[-+*/%&|^<>]|[=!]=",
     "`now` is only the whole value of a `let`: `let time = now;`"),
    (r"(?:[=(,+*/%&|^<>-]|emit|if)$", r"(?P<w>spawn|spawn_after|cancel|reschedule_after)\b",
     "`<w>` is a statement, or the whole value of a `let`"),
    (r"\btask (?P<t>\w+)$", r"\[ (?P<n>\d+) \]",
     "how many messages may be out is an option: `task t(capacity = 4) with x { .. }`"),
    (r"\b(?P<w>spawn_after|reschedule_after)$", r"\[", "the delay goes in parentheses: `<w>(100) ..`"),
    (r"[A-Za-z_]\w*$", r"\[ \d", "a resource or a variable is one number, and there are no arrays"),
    (rf"@ {OTHER_NAME}$", r"\[", "a resource or a variable is one number, and there are no arrays"),
    (r"[;}] (?P<w>shared|local|interrupts)$", r"[\[(]", "rows go in braces: `<w> { .. }`"),
    (r"\b(?P<w>shared|local|dispatchers)$", r"\[", "a list comes after `=` => = ["),
    (r"\b(?P<w>shared|local|interrupts)$", r"= \{", "no `=` comes before the braces: `<w> { .. }`"),
    (r"\b(?:shared|local|dispatchers) =$", r"[A-Za-z_]\w*", "a list goes in brackets: `[a, b]`"),
    (r"\b(?:shared|local|dispatchers) =$", r"\{", "a list goes in brackets: `[a, b]`"),
    (r"[;}]$", r"(?:\w+ )*(?:ISR \( )?\w*(?:_IRQHandler|_Handler|_irq|_isr|_ISR|_vect)\b", SERVED),
    (r"[;}]$", r"(?:pub )?(?:async )?(?:fn|void|def|func)\b",
     "there are no functions: only `init`, `idle` and tasks have bodies"),
    (r"^app \w+ \([^;]*\) ;$", r"(?:typedef |pub )?(?:enum|struct|union|class)\b",
     "the interrupts are declared next: `interrupts { I = 5 }`"),
    (r"[;}]$", r"(?:pub )?struct\b", RESOURCES),
    (r"[;}]$", r"const \w+ : \( \)|(?:pub )?mod \w+ \{", NO_FRAME),
    (r"[;}]$", r"(?:use|mod|extern|import)\b", ONE_FILE),
    (r"[;}]$", r"(?:const|static|type|enum|impl|trait)\b",
     "there are no constants and types: a number is written where it is used"),
    (r"^app \w+ \([^;]*\)$", r"\{",
     "the first declaration ends with `;`, and the others follow it without braces around them"),
    (r"^app (?P<x>\w+)$", r"[;{]|interrupts\b",
     "the first declaration is `app a(bits = 4);`, with the priority bits of the core"),
    (r"^app \w+ \($", r"(?:dispatchers|fpu)\b",
     "`bits` comes first, then `dispatchers`, then `fpu`"),
    (r"\b(?:interrupts|shared|local) \{[^}]*\b(?P<w>fpu|bits|priority|capacity|binds) =$", r"[A-Za-z_\[]",
     "`<w>` is an option, and goes in parentheses: `app a(bits = 4, fpu = on);`, `task t(priority = 1) { .. }`"),
    (r"\bfpu =$", r"(?!(?:false|off|no|none|0|soft|OFF|Off)\b)\w",
     "the core's floating-point extension is told by `fpu = on`, and without it there is no `fpu`"),
    (r"\bfpu =$", r"\w", "without `fpu` the core has no floating-point extension"),
    (r"", r"(?:true|false)\b", "`true` is 1 and `false` is 0"),
    (r"\bfor$", r"\w+ \.\.", "a loop has a variable of its own: `for i in 0..8 { .. }`"),
    (r"\b(?:app|task|let|lock|pend|with)$", r"\d", "a name begins with a letter or `_`"),
    (r"\bfor$", r"\d", "a loop is `for i in 0..8 { .. }`, with a name and two numbers"),
    (r"\b(?:app|task) (?P<w>\w+)$", r"- (?P<v>\w+)", LETTERS),
    (r"\binterrupts \{ (?:[^}]*, )?(?P<x>[A-Za-z_]\w*)$", r"[,}]",
     "an interrupt is declared with its number: `I = 5`"),
    (r"\b(?:shared|local) \{ (?:[^}]*, )?(?:lock_free )?(?P<x>[A-Za-z_]\w*)$", r"[,};]",
     "a resource is declared with its first value: `a = 0`"),
    (r"\b(?:shared|local) \{ [^}]*= \w+$", r"[-+*/%&|^]|<<|>>",
     "a first value is a number; what is computed is set in `init`"),
    (r"\b(?:shared|local|interrupts) \{ [^}]*= \w+$", r"; (?:(?:lock_free )?\w+ =|\})", "commas separate the rows"),
    (r"\}$", r";", BRACES),
    (r"@ if [^;{}]*(?:\w|\))$", r"then\b", "there is no `then`: the block comes after the value, `if a { .. }`"),
    (r"\binit \((?:.*,)?$", r"shared\b", "`init` uses every shared resource by its name, and lists none"),
    (r"\binit \((?:[^{]*,)?$", r"(?:priority|binds|capacity)\b", "`init` takes `local` alone"),
    (r"\bidle \((?:[^{]*,)?$", r"(?:priority|binds|capacity)\b",
     "`idle` has the priority 0, and takes `shared` and `local` alone"),
]


# what comes in the values of a body
VALUES = [
    (r"(?:\w|\))$", r"is not\b", "there is no `is`, and not equal is `!=` => !="),
    *[(r"(?:\w|\))$", rf"{word}\b", f"there is no `{word}`: the sign is `{sign}` => {sign}")
      for word, sign in WORD_SIGNS.items()],
    (rf"(?:^|(?<!\w))(?P<f>{OTHER_NAME})$", r"\(", "there are no functions: a value is calculated where it is used",
     is_nothing),
]

# what is likely where the program takes no small change
GUESSES = [
    (r"\b(?:interrupts|shared|local) \{(?: [^}]*,)? (?:lock_free )?(?P<x>[A-Za-z_]\w*)$", r"(?P<n>\d\w*)",
     ROW + ", and commas separate the rows"),
    (r"\b(?:interrupts|shared|local) \{[^}]*= \w+$", r"(?:lock_free )?[A-Za-z_]\w* =", "commas separate the rows"),
    (r"[(,] \w+ = (?:\w+|\[[^\]]*\])$", r"; \w+ =", "a `,` comes between two options"),
    (r"[;}] monotonic$", r"[={\w]", "the form is `monotonic(binds = I, priority = 3);`"),
    (r"\blet \w+$", r",", "a `let` declares one variable"),
    (r"\blet [^;{}(]*$", r",", "a `let` declares one variable, and has one value"),
    (r"\block [^{}]*\{[^{}]*\}$", r"else\b",
     "a lock never fails, and has no `else`: one comes after the block of an `if` alone"),
    (r"[;{}]$", r"else\b", "an `else` comes once, directly after the block of its `if`"),
    (r"(?:[(,]|emit|if)$", r"\+ (?P<n>\w+)\b", "there is no sign before a number", is_prefix),
    (r"(?<!\blet)(?<!\bfor)(?<!\btask)(?<!\bapp)(?<!\bwith)(?<!\block)(?<!\bpend)(?<!\bspawn)(?<![{\[,])$", r"now\b",
     "`now` is only the whole value of a `let`: `let x = now;`"),
    (r"@ if [^;{}]*(?:\w|\w \))$", rf"{BEGINS}(?: |$)|[A-Za-z_]\w* (?:[.(]|: :)", BLOCKS),
    (r"\belse$", rf"(?!\}}){BEGINS}(?: |$)|[A-Za-z_]\w* [.(]",
     "what depends on an `else` goes in braces: `else { .. }`"),
    (r"\belse$", r"[^{]", "the block of an `else` comes directly behind it: `else { .. }`"),
    (r"@$", r"\(", "no statement begins with `(`: it is `a = ..;`, or begins with `if`, `lock` or another word"),
]


# the groups that are names, and no words of the language
OF_NAMES = "xyabtrh"


def looked_up(rows, syntax):
    """What the first row says that fits a place, and whose proof holds; or None."""
    for front, at, sentence, *proofs in rows:
        if "@" in front and "^" not in front and not syntax.in_body:
            continue
        left = re.search(front.replace("@", STATEMENT), syntax.before)
        right = left and re.match(at, syntax.behind)
        if right:
            groups = {**left.groupdict(), **right.groupdict()}
            if any(groups.get(letter) in WORDS for letter in OF_NAMES):
                continue
            count = len(right.group().split())
            told = re.sub(r"<([a-z])>", lambda found: groups.get(found.group(1)) or "", sentence)
            if all(holds(syntax, groups, count) for holds in proofs) and (
                    said := advised(syntax, told, len(left.group().split()), count)):
                return said
    return None


def what_it_is(text):
    """What a text is that is no application, by its beginning; or None."""
    beginning = " ".join(token.text for token in list(tokens_of(text))[:2])
    return next((sentence for _, at, sentence in OTHER_TEXTS if re.match(at, beginning)), None)
