# Completion of rtic and rticx for fish: the commands, and then in each place files of its kind (README.md beside this file).

# Whether the word that is completed is a file with this usual ending.
function __rtic_wants --argument-names ending
    set -l words (commandline -opc)
    set -l endings
    switch (string replace -r '.*/' '' "$words[1]")" $words[2]"
        case 'rticx run' 'rticx live'
            set endings rtic board script
        case 'rticx audit'
            set endings rtic board trace
        case 'rticx native'
            set endings rtic board
        case 'rticx why'
            set endings listing
        case 'rticx bounds'
            set endings listing limits
        case 'rticx cycles'
            set endings rtic
        case 'rticx respond'
            set endings rtic limits
        case 'rticx *'
        case '* check' '* fmt' '* build' '* soak' '* deepest'
            set endings rtic
        case '* run' '* live'
            set endings rtic script
        case '* audit'
            set endings rtic trace
        case '* times'
            set endings rtic limits
        case '* verify'
            set endings listing
        case '* pair'
            set endings rtic rtic script
    end
    set -l place (math (count $words) - 1)
    test $place -ge 1; and test $place -le (count $endings); and test $endings[$place] = $ending
end

# The files that begin with the word. Those with the ending and folders come first. Where the ending is that of
# applications others come only if there are none of these.
function __rtic_files --argument-names ending
    set -l files (complete -C "__rtic_without_completions "(commandline -ct))
    set -l first (string match -r -- ".*\.$ending\$" $files) (string match -r -- '.*/$' $files)
    if test $ending != rtic; or not set -q first[1]
        set first $first $files
    end
    printf '%s\n' $first
end

for program in rtic rticx
    complete -c $program -f
    complete -c $program -n __fish_is_first_token -s h -l help -d 'write this help'
    complete -c $program -n __fish_is_first_token -l version \
        -d 'write the version, and whether the program at hand is the proved one'
    for ending in rtic board script trace limits listing
        complete -c $program -n "__rtic_wants $ending" -k -a "(__rtic_files $ending)"
    end
end
for row in \
        'run:write an image of an application, and its trace under a script' \
        'check:write ceilings, frames, costs, waiting bounds and the stack bound' \
        'fmt:write the canonical text, without comments' \
        'build:write the listing of an image' \
        'audit:judge whether a trace is a run of Baker\'s machine' \
        'live:run with the devices of the script in threads of their own' \
        'soak:count what happens in many generated runs of one image' \
        'demo:write an application of N hardware tasks' \
        'deepest:write a script on which the stack reaches its bound' \
        'verify:judge whether an image keeps the rules by which it is safe' \
        'times:write the response time of each priority' \
        'pair:run two cores that pend each other\'s interrupts'
    set -l parts (string split -m 1 : $row)
    complete -c rtic -n __fish_is_first_token -a $parts[1] -d $parts[2]
end
for row in \
        'run:write an image of an application, and its trace under a script that gives values' \
        'audit:judge whether such a trace is a run of Baker\'s machine beside devices' \
        'live:run such a script with its devices in threads of their own' \
        'native:write an executable of an image for the ARMv7-M core of a board' \
        'why:judge as rtic verify does, and say where an image breaks a rule' \
        'cycles:write what an image costs on a Cortex-M4, in cycles' \
        'bounds:write the steps of handlers and sections of an image, its stack, and response times' \
        'respond:write the response time of each task, and what comes of requests'
    set -l parts (string split -m 1 : $row)
    complete -c rticx -n __fish_is_first_token -a $parts[1] -d $parts[2]
end
