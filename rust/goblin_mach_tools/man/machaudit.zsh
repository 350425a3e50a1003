#compdef machaudit

_arguments \
    '--limit[check at most N items per list]:N: ' \
    '--names[also audit the files that FILE lists, one per line]:FILE:_files' \
    '--arch[audit only images for this cpu]:NAME: ' \
    '--cputype[audit only images with this cputype]:0xN: ' \
    '--json[print one JSON object per file, each on a line]' \
    '--quiet[print one line per file]' \
    '-0[names in the lists of --names end with NUL]' \
    '--color[colour what is at fault, auto, always or never]:WHEN: ' \
    '(- *)-h[print the usage]' \
    '(- *)--help[print this help]' \
    '(- *)--version[print the name and version]' \
    '*:file:_files'
