#compdef machfixups

_arguments \
    '--rebases[print the rebases]' \
    '--binds[print the binds]' \
    '--weak[print the weak binds of the opcodes]' \
    '--chains[print the chained fixups]' \
    '--json[print one JSON object per file, each on a line]' \
    '--limit[print at most N lines per file]:N: ' \
    '--names[also read the files that FILE lists, one name a line]:FILE:_files' \
    '-0[names in the lists of --names end with NUL]' \
    '--arch[show only images for this cpu]:NAME: ' \
    '--cputype[show only images with this cputype]:0xN: ' \
    '--lossy[show what can be read of an image that is refused]' \
    '--color[colour what is at fault, auto, always or never]:WHEN: ' \
    '(- *)-h[print the usage]' \
    '(- *)--help[print this help]' \
    '(- *)--version[print the name and version]' \
    '*:file:_files'
