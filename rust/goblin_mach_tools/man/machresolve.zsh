#compdef machresolve

_arguments \
    '--arch[of a fat program, the first entry for this cpu]:NAME: ' \
    '--cputype[of a fat program, the first entry with this cputype]:0xN: ' \
    '--limit[print at most N bindings of the program]:N: ' \
    '--color[colour what is at fault, auto, always or never]:WHEN: ' \
    '(- *)-h[print the usage]' \
    '(- *)--help[print this help]' \
    '(- *)--version[print the name and version]' \
    '*:file:_files'
