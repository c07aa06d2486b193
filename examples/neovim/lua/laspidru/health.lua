-- What `:checkhealth laspidru` says: whether the library loads, and whether each server has the texts of its buffers.
local health = vim.health or require("health")
local start, info = health.start or health.report_start, health.info or health.report_info
local ok, warn, fail = health.ok or health.report_ok, health.warn or health.report_warn, health.error or health.report_error

local M = {}

function M.check()
    start("laspidru")
    local is_loaded, laspidru = pcall(require, "laspidru")
    if not is_loaded then return fail(tostring(laspidru)) end
    ok("the library is version " .. laspidru.version)
    local sessions = require("laspidru_sync").status()
    if #sessions == 0 then info('no server runs that was started with require("laspidru_sync").config(..)') end
    for _, session in ipairs(sessions) do
        info(("%s counts positions in %s"):format(session.server, session.encoding))
        if #session.documents == 0 then warn(session.server .. " has no document: is a buffer attached?") end
        for _, document in ipairs(session.documents) do
            local version = ("%s, version %s"):format(document.name, document.version or "none")
            if document.problem then warn(version .. ": the server lacks the text: " .. document.problem) else ok(version .. ": the server has the text") end
        end
    end
end

return M
