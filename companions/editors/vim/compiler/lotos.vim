" LOTOS: :make checks the file, and a refusal leads to its place. Made by companions/make-editor-files from the table of the reserved words.
if exists("current_compiler")
  finish
endif
let current_compiler = "lotos"
CompilerSet makeprg=lotos\ check\ %:S
CompilerSet errorformat=%+Grefused\ %n\ %.%#\ at\ library\ %.%#,
    \%+Grefused\ %n\ %.%#\ at\ with:%.%#,
    \%+Erefused\ %n\ %.%#\ at\ %f:%l:%c,
    \%+Erefused\ %n\ %.%#\ at\ %f:%l:%c\ %.%#,
    \%+Grefused\ %.%#,
    \%+Gcannot\ read\ %.%#,
    \%-G%.%#
