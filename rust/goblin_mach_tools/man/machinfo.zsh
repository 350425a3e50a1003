#compdef machinfo

_arguments \
    '--headings[print a heading before the lines of a list]' \
    '--explain[print what turns each verdict of security on]' \
    '--limit[print at most N rows per file]:N: ' \
    '--raw[write only the bytes of the section, as they are]' \
    '--json[print one JSON object per file, each on a line]' \
    '--names[also read the files that FILE lists, one name a line]:FILE:_files' \
    '-0[names in the lists of --names end with NUL]' \
    '--arch[show only images for this cpu]:NAME: ' \
    '--cputype[show only images with this cputype]:0xN: ' \
    '--lossy[show what can be read of an image that is refused]' \
    '--at[print what each image has at an address]:ADDRESS: ' \
    '--color[colour what is at fault, auto, always or never]:WHEN: ' \
    '(- *)-h[print the usage]' \
    '(- *)--help[print this help]' \
    '(- *)--version[print the name and version]' \
    '1:command:((at\:"print what each image has at an address" bytes\:"print the bytes of a section" commands\:"print the load commands with their fields" starts\:"print the addresses of the functions" slots\:"print the stubs and symbol pointers" indirect\:"print the indirect symbol table" data\:"print the data in code" options\:"print the linker options" tools\:"print the build tools" notes\:"print the notes" providers\:"print which library provides each undefined symbol" libraries\:"print the libraries, their versions and their use" id\:"print the name and versions of a library itself" rebases\:"print the rebases" weak\:"print the weak binds" segments\:"print the segments" sections\:"print the sections of all segments" uuid\:"print the UUIDs" rpaths\:"print the run paths" entrypoint\:"print where the image begins to run" header\:"print the header" security\:"print how the image is hardened" relocations\:"print the relocations of the sections" strings\:"print the strings of the sections" inits\:"print the functions that dyld calls before main" exports\:"print what the image exports" imports\:"print what dyld binds"))' \
    '*:file:_files'
