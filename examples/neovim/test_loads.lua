-- Whether this Neovim can run the plugin at all; it prints why not.
vim.schedule(function()
    local is_loaded, problem = pcall(require, "laspidru_sync")
    if not is_loaded then io.stderr:write(tostring(problem), "\n") end
    vim.cmd(is_loaded and "qall!" or "cquit!")
end)
