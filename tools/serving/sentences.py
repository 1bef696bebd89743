"""A sentence for each word of the language, shown where it stands or may stand; docs/LANGUAGE.md has all rules."""

TOLD = {
    "app": "The first declaration: the application's name, its priority bits, its dispatchers, and `fpu = on` where "
           "the core has the floating-point extension.",
    "bits": "The implemented priority bits, 3 to 7: priorities are 1 to 2^bits.",
    "dispatchers": "The interrupts that serve software tasks: the highest level has the first, the next the second.",
    "fpu": "With `fpu = on` each exception entry takes the space of the extended frame, 104 bytes in place of 32.",
    "on": "With `fpu = on` each exception entry takes the space of the extended frame, 104 bytes in place of 32.",
    "interrupts": "The interrupts that the application knows, with their numbers, 0 to 495.",
    "monotonic": "The interrupt and the priority of the timer queue, which `spawn_after`, `cancel`, `reschedule_after` "
                 "and `now` need.",
    "binds": "The interrupt that a task, or the monotonic, serves: an interrupt serves one thing at most.",
    "priority": "1 to 2^bits, and a greater number is more urgent; a task has 1 where none is written, `idle` 0.",
    "capacity": "How many messages of a software task may be out at once, 1 to 16; 1 where none is written.",
    "shared": "Resources of several bodies: `shared { .. }` declares them with first values, `shared = [a, &b]` lists "
              "those that a body uses, with `&` for reading alone.",
    "local": "Resources of one body each: `local { .. }` declares them with first values, `local = [n]` lists those of "
             "a body.",
    "lock_free": "A shared resource that only bodies of one priority list: they use it without a lock.",
    "init": "Runs first, with interrupts masked; it uses every shared resource by its name, and locks none.",
    "idle": "Runs again and again while nothing else does, at priority 0.",
    "task": "With `binds` a hardware task, the handler of an interrupt; else a software task, which takes messages.",
    "with": "The names of the values of a message, four at most, as variables of the task's body.",
    "let": "Declares a variable, from the end of the `let` to the end of its block: a value, `now`, or a spawn's "
           "answer.",
    "if": "The first block runs where the value is not 0, else the second; there is no `else if`.",
    "else": "The block that runs where the value of the `if` is 0.",
    "for": "`for i in 0..8 { .. }` runs for i from 0 to 7; the two bounds are numbers, and the loop alone sets i.",
    "in": "`for i in 0..8 { .. }` runs for i from 0 to 7; the two bounds are numbers, and the loop alone sets i.",
    "lock": "A section of a resource: until its block ends no task runs whose priority is at most the ceiling.",
    "emit": "Shows a number in the trace.",
    "pend": "Requests an interrupt: its handler runs as soon as its priority allows.",
    "spawn": "Sends a message to a software task at once; the value is 1, or 0 where no place was left.",
    "spawn_after": "Sends a message after a delay in ticks; the value is its handle, or 0 where no place was left.",
    "now": "The time in ticks; it is only the whole value of a `let`.",
    "cancel": "Withdraws the armed message that has the handle; the value is 0, or 1 where no such message waits.",
    "reschedule_after": "Moves the armed message that has the handle to a delay from now; the value is 0, or 1 where "
                        "no such message waits.",
}
