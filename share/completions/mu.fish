# Completions of `mu` for fish.

function __mu_command
    # The first word that is no option, and no value of one.
    set -l words (commandline -opc)
    set -e words[1]
    while set -q words[1]
        switch $words[1]
            case --picture --seed --install --uninstall
                set -e words[1]
                set -q words[1]; and set -e words[1]
            case '--*'
                set -e words[1]
            case '*'
                echo $words
                return
        end
    end
end

function __mu_begins
    set -l words (__mu_command)
    test -z "$words"
end

function __mu_is
    string match -q -r "^$argv[1]( |\$)" -- (__mu_command)
end

function __mu_after
    set -l words (commandline -opc)
    contains -- $words[-1] $argv
end

function __mu_functions
    set -l words (string split ' ' -- (__mu_command))
    test -f "$words[2]"; and string match -r -g '^\s*\.funcdef\s+(@\S+)' <$words[2]
end

complete -c mu -f
complete -c mu -n __mu_begins -a check -d 'judges a bundle'
complete -c mu -n __mu_begins -a print -d 'prints a bundle in its canonical text'
complete -c mu -n __mu_begins -a run -d 'judges a bundle and runs it'
complete -c mu -n __mu_begins -a explore -d 'runs a bundle under all schedules'
complete -c mu -n __mu_begins -a trial -d 'makes a bundle of two threads and runs it'
complete -c mu -n __mu_begins -a judge -d 'judges what a run printed'
complete -c mu -n __mu_begins -a join -d 'prints many bundles joined to one'
complete -c mu -n '__mu_is join' -F
complete -c mu -n '__mu_after check print run explore judge --hail --client --schedule --condition --picture --check-all' -F
complete -c mu -n '__mu_after --entry' -a '(__mu_functions)'
complete -c mu -n '__mu_after --release-sequences' -a 'c11 rmw'
complete -c mu -n '__mu_after --install --uninstall' -a '(__fish_complete_directories)'
complete -c mu -n '__mu_is "(run|explore)"' -l entry -d 'the function to begin with'
complete -c mu -n '__mu_is "(run|explore)"' -l hail -d 'a HAIL script'
complete -c mu -n '__mu_is "(run|explore)"' -l client -d 'a client script'
complete -c mu -n '__mu_is "(run|explore)"' -l auto -d 'answers each trap by zero and NULL'
complete -c mu -n '__mu_is run' -l schedule -d 'the numbers of a schedule'
complete -c mu -n '__mu_is "(run|explore)"' -l release-sequences -d 'c11 or rmw'
complete -c mu -n '__mu_is judge' -l release-sequences -d 'c11 or rmw'
complete -c mu -n '__mu_is "(run|explore)"' -l steps -d 'the most steps'
complete -c mu -n '__mu_is "(run|explore)"' -l cells -d 'the most cells'
complete -c mu -n '__mu_is explore' -l runs -d 'the most runs'
complete -c mu -n '__mu_is explore' -l condition -d 'conditions on the outcomes'
complete -c mu -n __mu_begins -l explain -d 'says where a fault stands and what it means'
complete -c mu -n __mu_begins -l show -d 'prints the log of a run beside its source'
complete -c mu -n __mu_begins -l results -d 'prints only records and ending'
complete -c mu -n __mu_begins -l picture -d 'draws a run'
complete -c mu -n __mu_begins -l step -d 'steps through a run'
complete -c mu -n __mu_begins -l picks -d 'prints what each pick chose among'
complete -c mu -n __mu_begins -l seed -d 'runs by pseudo-random numbers'
complete -c mu -n __mu_begins -l check-all -d 'checks many files'
complete -c mu -n __mu_begins -l proved -d 'answers only by the proved program'
complete -c mu -n __mu_begins -l build -d 'proves and builds the program'
complete -c mu -n __mu_begins -l gate -d 'proves and tests everything'
complete -c mu -n __mu_begins -l install -d 'puts mu into a folder'
complete -c mu -n __mu_begins -l uninstall -d 'removes what --install put there'
complete -c mu -n __mu_begins -l version -d 'prints commit, kit, and whether it is proved'
complete -c mu -n __mu_begins -l help -d 'prints all words'
