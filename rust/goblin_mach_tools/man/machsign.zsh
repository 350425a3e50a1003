#compdef machsign

_arguments \
    '--entitlements[write the entitlements of the first image with any]' \
    '--limit[print at most N lines of blobs and faults per file]:N: ' \
    '--json[print one JSON object per file, each on a line]' \
    '--names[also read the files that FILE lists, one name a line]:FILE:_files' \
    '-0[names in the lists of --names end with NUL]' \
    '--arch[show only images for this cpu]:NAME: ' \
    '--cputype[show only images with this cputype]:0xN: ' \
    '--lossy[show what can be read of an image that is refused]' \
    '--color[colour what is at fault, auto, always or never]:WHEN: ' \
    '(- *)-h[print the usage]' \
    '(- *)--help[print this help]' \
    '(- *)--version[print the name and version]' \
    '*:file:_files'
