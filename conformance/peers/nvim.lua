-- What nvim.py runs in Neovim: each line of $ASKED is a buffer and lists of text edits, each line of $ANSWERS the text after them.
vim.o.swapfile, vim.o.hidden, vim.o.undolevels, vim.o.fixeol = false, true, -1, false
vim.notify = function() end

local function answer(case)
  local buffer = vim.api.nvim_create_buf(true, false)
  vim.api.nvim_set_current_buf(buffer)
  vim.bo[buffer].fileformat = ({ ['\r\n'] = 'dos', ['\r'] = 'mac', ['\n'] = 'unix' })[case['end']]
  vim.bo[buffer].fixeol = false
  vim.api.nvim_buf_set_lines(buffer, 0, -1, true, case.lines)
  vim.bo[buffer].eol = case.ended
  for _, edits in ipairs(case.steps) do
    local ok, why = pcall(vim.lsp.util.apply_text_edits, edits, buffer, case.encoding)
    if not ok then
      return { refused = tostring(why) }
    end
  end
  local text = table.concat(vim.api.nvim_buf_get_lines(buffer, 0, -1, true), case['end'])
  return { text = text .. (vim.bo[buffer].eol and case['end'] or '') }
end

vim.defer_fn(function()
  local answers = io.open(os.getenv('ANSWERS'), 'w')
  for line in io.lines(os.getenv('ASKED')) do
    answers:write(vim.json.encode(answer(vim.json.decode(line))), '\n')
    vim.cmd('silent! %bwipeout!')
  end
  answers:close()
  vim.cmd('qall!')
end, 10)
