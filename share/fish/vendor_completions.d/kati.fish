# Completion of kati, kati-asked, kati-build, kati-port and kati-compare for fish.

# The targets of the makefile, and its macros with an equals sign.
function __kati_names
    set -l file makefile
    test -e makefile; or set file Makefile
    set -l words (commandline -opc)
    if set -l at (contains -i -- -f $words)
        set file $words[(math $at + 1)]
    end
    test -f "$file"; and sed -n -e '/^\t/d' -e 's/^ *\([A-Za-z0-9_.-]\{1,\}\) *[:+?]*=.*/\1=/p' -e t \
        -e 's/^\([^:#=$%]*\):.*/\1/p' <$file 2>/dev/null | tr -s ' &' '\n\n' | grep -v '^\.[A-Z]'
end

for command in kati kati-asked kati-build kati-compare
    complete -c $command -f -a '(__kati_names)'
    complete -c $command -s f -r -F -d 'reads FILE in place of makefile or Makefile'
    complete -c $command -l ninja -d 'is accepted; a Ninja file is always written'
    complete -c $command -l depth -x -d 'how many levels macros and includes may nest, 1 to 400'
end
for command in kati kati-asked
    complete -c $command -l files -r -F -d 'the names of the files that exist, one a line'
    complete -c $command -l check -r -F -d 'writes nothing; says whether FILE says the same'
end

for command in kati-build kati-port kati-compare
    complete -c $command -l files-from -r -F -a 'git find' -d 'where the list of files comes from'
    complete -c $command -l files -r -F -a 'git find' -d 'where the list of files comes from'
    complete -c $command -l builtin -d "make's usual macros and rules"
    complete -c $command -l kati -r -F -d 'the program kati'
end
for command in kati kati-asked kati-build kati-port kati-compare
    complete -c $command -s h -l help -d help
end
complete -c kati-build -l port -d 'builds by any GNU makefile, which stays as it is'
complete -c kati-build -l values -d 'asks make again for what the machine tells'
complete -c kati-build -s o -r -F -d 'the Ninja file'
complete -c kati-build -l deps -d 'header dependencies of -MD and -MMD'
complete -c kati-build -s j -x -d 'how many commands ninja runs at once'
complete -c kati-build -l no-ninja -d 'translates, and runs no ninja'
complete -c kati-build -l remove -d 'takes away all that kati-build has written'
complete -c kati-build -l anew -d 'rebuilds everything'
complete -c kati-build -l as-made -d 'is accepted; takes what exists as make has made it'
complete -c kati-build -l compile-commands -d 'writes compile_commands.json too'
complete -c kati-build -l kati-asked -r -F -d 'the program kati-asked'
complete -c kati-port -a '(__kati_names)'
complete -c kati-port -s f -r -F -d 'the makefile'
complete -c kati-port -l write -d 'rewrites the makefile until kati takes it'
complete -c kati-port -l diff -d 'shows the change, and writes nothing'
complete -c kati-port -l values -d 'makes kati-values.mk anew'
complete -c kati-port -l macros -d 'prints what make asks the machine for'
complete -c kati-compare -l build -d 'builds both ways, and compares the files'
complete -c kati-compare -l words-for-kati -d 'gives the macros to kati alone'
