-- Reports for wrk: a tracker for each of its threads, which reports an operation of a manual workstation started and
-- interrupted in turn. Its words are the last number that each tracker used, a moment, and for each thread a tracker's
-- name and an operation's key. Take as many connections as threads: then each tracker's numbers rise by one.
local threads = 0
local number, at, tracker, operation
local is_tried

function setup(thread)
    threads = threads + 1
    thread:set("turn", threads)
end

function init(words)
    number, at, tracker, operation = tonumber(words[1]), words[2], words[1 + 2 * turn], words[2 + 2 * turn]
    -- of the first thread wrk makes a request that it doesn't send, to see that it is one
    is_tried = turn > 1
end

function request()
    if is_tried then number = number + 1 end
    is_tried = true
    local what = number % 2 == 1 and "started" or "interrupted"
    local text = string.format('{"tracker":"%s","number":%d,"at":"%s","do":"%s","op":"%s"}', tracker, number, at, what, operation)
    return wrk.format("POST", "/report", {}, text)
end
