#!/usr/bin/env bash
# A session with a real editor, Neovim or Emacs with eglot, without a screen. `lspsync serve` is its language server, and a `tee` records what
# the editor sends. It edits, saves and quits. Then the script reads the record by `lspsync check` and `lspsync replay`, and compares the
# replayed text with the file that the editor saved.
#
#   examples/with-editor.sh nvim|emacs [FOLDER]      FOLDER keeps the record and the file; without it they are thrown away
#
# LSPSYNC names an lspsync; without it ./look is taken, which compiles one in minutes where none is built. It needs Neovim 0.7 or later, or
# Emacs with eglot. The status is 0 where both texts are equal, 1 where they aren't, 2 where something that is needed isn't there.
set -eu
[ "${1-}" != --help ] || { awk 'NR > 1 { if (!/^#/) exit; print substr($0, 3) }' "$0"; exit; }
fail() {
    echo "with-editor.sh: $1" >&2
    exit 2
}
editor="${1-}"
case $editor in
    nvim)
        command -v nvim >/dev/null || fail "there is no nvim: on Debian 12, apt-get install neovim"
        nvim --headless -u NONE -i NONE -n -c 'if has("nvim-0.7") | qall! | else | cquit | endif' 2>/dev/null ||
            fail "Neovim 0.7 or later is needed: on Debian 12, apt-get install neovim"
        ;;
    emacs)
        command -v emacs >/dev/null || fail "there is no emacs: on Debian, apt-get install emacs-nox elpa-eglot"
        emacs --batch -q --eval "(package-initialize)" --eval "(require 'eglot)" 2>/dev/null ||
            fail "this Emacs has no eglot: on Debian 12, apt-get install elpa-eglot (Emacs 29 and later has it)"
        ;;
    *) fail "name an editor, nvim or emacs; --help says more" ;;
esac
top="$(cd "$(dirname "$0")/.." && pwd)"
program="${LSPSYNC:-$top/look}"
[ -n "${LSPSYNC-}" ] || [ -e "$program" ] || program="$top/lspsync" # (a release has that alone)
program="$(command -v "$program")" || fail "LSPSYNC names no program: $LSPSYNC"
program="$(realpath "$program")"
if [ $# -gt 1 ]; then
    folder="$2"
    mkdir -p "$folder"
else
    folder="$(mktemp -d)"
    trap 'rm -rf "$folder"' EXIT
fi
"$program" --help >/dev/null || fail "lspsync can't be run; what it said is above" # builds it where it isn't built yet
export LSPSYNC="$program"
cd "$folder"
printf 'first line\nsecond line\nthird line\n' >notes.txt

cat >session.el <<'ELISP'
(require 'eglot)
(setq eglot-sync-connect 5
      make-backup-files nil)
(defun edit (place text)
  "Types TEXT behind PLACE, and lets eglot tell the server."
  (goto-char (point-min))
  (search-forward place)
  (insert text)
  (eglot--signal-textDocument/didChange))
(find-file "notes.txt")
(let ((command (format "tee session.log | '%s' serve" (getenv "LSPSYNC"))))
  (eglot '(text-mode) (cons 'transient default-directory) 'eglot-lsp-server
         (list "sh" "-c" command) "plaintext"))
(edit "first" ", a heading")
(edit "second" ", längere 😀")
(edit "😀" "!")
(goto-char (point-max))
(insert "fourth line\n")
(undo-boundary)
(eglot--signal-textDocument/didChange)
(goto-char (point-min))
(while (search-forward "line" nil t) (replace-match "row" t t))
(eglot--signal-textDocument/didChange)
(save-buffer)
(eglot-shutdown (eglot-current-server))
ELISP
cat >session.lua <<'LUA'
local done = false
local id = vim.lsp.start_client({
    name = "lspsync",
    cmd = { "sh", "-c", 'tee session.log | "$0" serve', vim.env.LSPSYNC },
    root_dir = vim.fn.getcwd(),
    flags = { debounce_text_changes = 0 },
    on_exit = function() done = true end,
})
vim.lsp.buf_attach_client(0, id)
vim.wait(5000, function() return vim.lsp.buf_is_attached(0, id) end, 10)
local function edit(keys)
    vim.o.undolevels = vim.o.undolevels -- so that `u` undoes one edit, not all of them
    vim.cmd("normal! " .. keys)
    vim.wait(50)
end
edit("ggIa heading: ")
edit("jA, längere 😀 Zeile")
edit("jdd")
edit("Gofourth line")
edit("ggyyp")
edit("u")
edit("Gofifth 😀😀 line")
edit("0wxx")
vim.cmd("%s/line/row/g")
vim.wait(50)
vim.cmd("write")
vim.lsp.stop_client(id)
vim.wait(1000, function() return done end, 10) -- `tee` may stay until Neovim closes its end
vim.cmd("qall!")
LUA
if [ "$editor" = nvim ]; then
    nvim --headless -u NONE -i NONE -n notes.txt -S session.lua 2>editor.log || cat editor.log
else
    emacs --batch -q --eval "(package-initialize)" -l session.el 2>editor.log || cat editor.log
fi
if [ ! -s session.log ]; then
    cat editor.log >&2
    fail "$editor sent nothing to its language server; what it said is above"
fi

echo "what a server answers to each message:"
"$program" check <session.log || [ $? = 1 ] # where something was refused the texts are still compared
echo "the documents at the end:"
"$program" replay <session.log || [ $? = 1 ]
"$program" replay --uri notes.txt <session.log >replayed.txt || [ $? = 1 ]
if cmp notes.txt replayed.txt; then
    echo "the replayed text is the one that $editor saved"
else
    echo "the replayed text is not the one that $editor saved"
    exit 1
fi
