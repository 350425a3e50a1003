#compdef machsyms

_arguments \
    '-a[show debugging symbols too]' \
    '--debug-syms[show debugging symbols too]' \
    '-g[show only external symbols]' \
    '--extern-only[show only external symbols]' \
    '-u[show only undefined symbols, by name alone]' \
    '--undefined-only[show only undefined symbols, by name alone]' \
    '-U[show only defined symbols]' \
    '--defined-only[show only defined symbols]' \
    '-n[sort by address]' \
    '--numeric-sort[sort by address]' \
    '-r[reverse the order]' \
    '--reverse-sort[reverse the order]' \
    '-p[keep the order of the symbol table]' \
    '--no-sort[keep the order of the symbol table]' \
    '-j[print only the names]' \
    '-m[describe each symbol in words]' \
    '-x[print the fields in hexadecimal]' \
    '-A[print the file name before each line]' \
    '--print-file-name[print the file name before each line]' \
    '-o[print the file name before each line]' \
    '--raw[print names as they are in the file]' \
    '--limit[print at most N symbols per file]:N: ' \
    '--at[print what is at an address; - reads more from stdin]:ADDRESS: ' \
    '--load-address[the address at which an image'\''s first byte is loaded]:A: ' \
    '--json[print one JSON object per file, each on a line]' \
    '--names[also read the files that FILE lists, one name a line]:FILE:_files' \
    '-0[names in the lists of --names end with NUL]' \
    '--arch[show only images for this cpu]:NAME: ' \
    '--cputype[show only images with this cputype]:0xN: ' \
    '--lossy[show what can be read of an image that is refused]' \
    '--color[colour what is at fault, auto, always or never]:WHEN: ' \
    '(- *)-h[print the usage]' \
    '(- *)--help[print this help]' \
    '(- *)--version[print the name and version]' \
    '*:file:_files'
