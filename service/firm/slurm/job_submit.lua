-- Holds the jobs of the partitions that firm decides, and refuses those that take more than one slot.
--
-- `firm-slurm hook` writes the four tables. slurmctld reads this file as job_submit.lua beside slurm.conf; a site with
-- rules of its own calls firm_submit and firm_modify from them.
local CPUS = {}   -- of a slot, by partition
local CORES = {}  -- CPUs of a core, by partition, where Slurm gives a job whole cores
local MEMORY = {} -- MB of a slot, by partition, where Slurm counts memory
local BRIDGE = {} -- users that may release a job: root, and the one that firm-slurm runs as

-- Words in a job's comment: a hold is its user's own; how many elements of its array may run at a time.
local HELD, MOST = "firm:held", "firm:most="
local ADMIN = "firm:admin" -- root has held a job that was held already
local RELEASED = "firm:released" -- by its user: a comment must have a word, since Slurm doesn't change one to nothing
-- What a change may not say: a job keeps the size that was looked at.
local SIZES = {
  "min_nodes", "max_nodes", "num_tasks", "cpus_per_task", "min_cpus", "pn_min_cpus", "shared",
  "threads_per_core", "ntasks_per_core", "ntasks_per_node", "ntasks_per_tres", "sockets_per_node",
}
-- Of each text of a job that Slurm doesn't bound: at each look it sends firm-slurm those of all partitions' jobs.
local MOST_LETTERS = 4096
local MOST_OF_COMMENT = 1023 -- that Slurm takes
local REQUESTS = { "tres_per_job", "tres_per_node", "tres_per_socket", "tres_per_task" }

-- What a job asks for; Slurm has the last numbers of 16 and 32 bits for what it doesn't ask for.
local function is_asked(value)
  return value ~= nil and value ~= 65534 and value ~= 65535 and value < 4294967294
end

local function number_of(value)
  return is_asked(value) and value or 1
end

local function is_plain(text)
  return text == nil or not text:find("[%c|]")
end

-- Whether firm-slurm can read what squeue prints of a job's words. Slurm takes any text for the type of a GPU, newer
-- releases by an option also for a feature.
local function are_plain(job)
  if (job.features or ""):find("%c") then
    return false
  end
  for _, request in ipairs(REQUESTS) do
    if (job[request] or ""):find("%c") then
      return false
    end
  end
  return is_plain(job.comment) and is_plain(job.account) and is_plain(job.qos) and is_plain(job.licenses)
end

-- Why firm-slurm could not read what squeue prints of a job.
local function why_not_read(job)
  if not are_plain(job) then
    return "comment, account, QOS, licences, features and GPUs must have no control characters, the first four no |"
  end
  return nil
end

-- Letters of a script's arguments, with the blanks between them.
local function letters_of(arguments)
  local count = 0
  for _, argument in pairs(arguments or {}) do
    count = count + #argument + 1
  end
  return count
end

-- Why Slurm would need long to tell of a job, in any partition.
local function why_long(job)
  for what, count in pairs({
    ["dependencies"] = #(job.dependency or ""),
    ["the path of a container"] = #(job.container or ""),
    ["the arguments of a script"] = letters_of(job.argv),
  }) do
    if count > MOST_LETTERS then
      return string.format("%s must have at most %d letters", what, MOST_LETTERS)
    end
  end
  return nil
end

-- Tasks of a job: as many as one node has, where it only says that; sbatch says both.
local function tasks_of(job)
  return is_asked(job.num_tasks) and job.num_tasks or math.max(number_of(job.ntasks_per_node), 1)
end

-- The first request, like gres:gpu:a100:2, by which a job has several GPUs, or of another such resource: by a count,
-- which may be written like +2 or 1k, by two types, or by one for each of several tasks or sockets.
local function many_of(job)
  local types, tasks, sockets, by_gpu = {}, tasks_of(job), job.sockets_per_node, job.ntasks_per_tres
  local factors = { tres_per_task = tasks, tres_per_socket = is_asked(sockets) and sockets or 2 }
  for _, request in ipairs(REQUESTS) do
    for part in (job[request] or ""):gmatch("[^,]+") do
      local kind, count = part:match("^(.*)[:=]([%s+-]*%d[^:=]*)$")
      kind, count = kind or part, count or "1"
      local name = kind:match("^gres[:/][^:=]+") or kind
      if count ~= "0" and (count ~= "1" or (factors[request] or 1) > 1 or (types[name] or kind) ~= kind) then
        return job[request]
      end
      types[name] = kind
    end
  end
  if is_asked(by_gpu) and by_gpu > 0 and tasks > by_gpu then
    return "a GPU for each " .. by_gpu .. " of " .. tasks .. " tasks"
  end
  return nil
end

-- Whether a job asks for more memory than a slot has; 0 is all of a node.
local function is_large(job, name)
  local memory, by_node, by_cpu = MEMORY[name], job.min_mem_per_node, job.min_mem_per_cpu
  return memory ~= nil and (by_node ~= nil and (by_node == 0 or by_node > memory)
    or by_cpu ~= nil and (by_cpu == 0 or by_cpu * CPUS[name] > memory) or (job.mem_per_tres or "") ~= "")
end

local function refuse(...)
  slurm.log_user(...)
  return slurm.ERROR
end

-- Refuses a change; Slurm has no words for its user then.
local function deny(why)
  slurm.log_info("firm: %s", why)
  return slurm.ERROR
end

-- The one partition of a job that is firm's, nil where none is; with an error where there are others too.
local function partition_of(job, partitions)
  if job.partition == nil then
    for name, partition in pairs(partitions) do
      if partition.flag_default == 1 and CPUS[name] then
        return name
      end
    end
    return nil
  end
  local count, found = 0, nil
  for name in job.partition:gmatch("[^,]+") do
    count = count + 1
    found = CPUS[name] and name or found
  end
  return found, found ~= nil and count > 1
end

-- CPUs that Slurm takes for a job; with options like --hint=nomultithread some of its cores' CPUs stay unused.
local function cpus_of(job, name)
  local tasks, by_task = tasks_of(job), number_of(job.cpus_per_task)
  local core, cpus = CORES[name] or 1, tasks * by_task
  local threads, by_core = core, tasks
  if is_asked(job.threads_per_core) and job.threads_per_core > 0 then
    threads = math.min(core, job.threads_per_core)
  end
  if is_asked(job.ntasks_per_core) and job.ntasks_per_core > 0 then
    by_core = job.ntasks_per_core
  end
  local cores = math.max(math.ceil(cpus / threads), math.ceil(tasks / by_core))
  return math.max(cpus, cores > 1 and cores * core or 0)
end

-- CPUs that a job takes for its GPU: Slurm writes them as gpu:8. The pattern looks at no digit twice: the text may be
-- long, and slurmctld waits.
local function cpus_of_gpu(job)
  return tonumber((":" .. (job.cpus_per_tres or "")):match("^.*%D(%d+)$") or 0)
end

-- Nodes that a job asks for, or needs for its tasks. Without a word about them Slurm may take several for two tasks.
local function nodes_of(job)
  local nodes, by_node = math.max(number_of(job.min_nodes), number_of(job.max_nodes)), job.ntasks_per_node
  if is_asked(by_node) and by_node > 0 then
    return math.max(nodes, math.ceil(number_of(job.num_tasks) / by_node))
  end
  return nodes
end

-- Why a job has more than one slot, or asks for what firm decides.
local function why_not(job, name)
  local cpus = CPUS[name]
  if is_asked(job.het_job_offset) then
    return string.format("a job of partition %s has one component", name)
  end
  if job.script == nil then
    return string.format("partition %s takes batch jobs alone: use sbatch", name)
  end
  if nodes_of(job) > 1 or cpus_of(job, name) > cpus or cpus_of_gpu(job) > cpus
    or number_of(job.min_cpus) > cpus or number_of(job.pn_min_cpus) > cpus
    or is_asked(job.shared) and job.shared ~= 1 then -- a node for itself, its user or his group
    return string.format("a job of partition %s has one slot: one node, CPUs %d at most, not exclusive", name, cpus)
  end
  local why, many = why_not_read(job), many_of(job)
  if why ~= nil then
    return why
  end
  if many ~= nil then
    return string.format("a job of partition %s has one slot: not %s", name, many)
  end
  if is_large(job, name) then
    return string.format("a job of partition %s has one slot: MB of memory %d at most", name, MEMORY[name])
  end
  if (job.req_nodes or "") ~= "" or (job.exc_nodes or "") ~= "" then
    return string.format("firm chooses the node in partition %s: --comment=near=NODE,.. prefers some", name)
  end
  if (job.reservation or "") ~= "" then
    return string.format("partition %s takes no jobs of a reservation: firm places none on reserved nodes", name)
  end
  return nil
end

-- The comment with a word of firm's first: a comment that is too long loses its end, and keeps no hold from anybody.
local function with(comment, word)
  return (comment == nil or comment == "") and word or (word .. " " .. comment):sub(1, MOST_OF_COMMENT)
end

local function without(comment, word)
  local words = {}
  for found in (comment or ""):gmatch("%S+") do
    if found:sub(1, #word) ~= word then
      words[#words + 1] = found
    end
  end
  return table.concat(words, " ")
end

local function has(comment, word)
  return (" " .. (comment or "") .. " "):find(" " .. word .. " ", 1, true) ~= nil
end

-- The comment with the number of elements of an array that may run at a time; 0 is no limit, as in Slurm.
local function with_most(comment, most)
  return most ~= nil and with(without(comment, MOST), MOST .. most) or without(comment, MOST)
end

-- The comment with what firm has there, whatever its user writes. Slurm has the same `job` for each element of an
-- array, so one that was released for the first is so for all.
local function kept_comment(job, record)
  if job.comment == nil then
    return record.comment
  end
  local comment = without(without(without(job.comment, HELD), MOST), ADMIN)
  local is_released = has(job.comment, RELEASED)
  for word in (record.comment or ""):gmatch("%S+") do
    if word == HELD and not is_released or word == ADMIN or word:sub(1, #MOST) == MOST then
      comment = with(comment, word)
    end
  end
  return comment
end

-- Marks a job that root holds, or holds for its user, while it is held: Slurm may tell another reason than root's hold
-- later, as a failed dependency. What root held otherwise, as while it ran, firm-slurm marks by ADMIN as a comment. A
-- release ends the mark.
local function mark(job, record)
  local comment, is_marked = job.comment, job.comment ~= nil and has(job.comment, ADMIN)
  if comment == nil or is_marked then -- also as for an element of an array before this one
    comment = record.comment
  end
  local is_same = job.priority == nil or job.priority == slurm.NO_VAL
  if record.priority == 0 and (job.priority == 0 or is_same and is_marked) then
    job.comment = with(without(comment, ADMIN), ADMIN)
  elseif job.priority ~= 0 and not is_same and has(comment, ADMIN) then
    job.comment = with(without(without(comment, ADMIN), RELEASED), RELEASED)
  elseif job.comment ~= nil then
    job.comment = comment or "" -- which changes nothing
  end
end

-- Why a change of a job is none of its user's.
local function why_unchanged(job, name)
  if job.req_nodes ~= nil or job.exc_nodes ~= nil then -- nor may it be nothing: a job is pinned before its release
    return "firm chooses the node"
  end
  if (job.reservation or "") ~= "" then
    return "firm places no job on reserved nodes"
  end
  if job.nice ~= nil and job.nice ~= slurm.NO_VAL then -- Slurm computes a priority, which releases a held job
    return "firm decides when a job is released: a change of nice would release it"
  end
  for _, size in ipairs(SIZES) do
    if is_asked(job[size]) then
      return "a job keeps its size"
    end
  end
  if cpus_of_gpu(job) > CPUS[name] then
    return "a job keeps its size"
  end
  for _, request in ipairs(REQUESTS) do
    if job[request] ~= nil then
      return "a job keeps its size"
    end
  end
  if is_large(job, name) then
    return "a job keeps its size"
  end
  if job.requeue == 0 then
    return "a job that firm preempts is requeued"
  end
  return why_not_read(job)
end

function firm_submit(job, partitions, uid)
  local long = why_long(job)
  if long ~= nil then
    return refuse("%s", long)
  end
  local name, is_several = partition_of(job, partitions)
  if name == nil then
    return slurm.SUCCESS
  end
  if is_several then
    return refuse("partition %s can't be one of several", name)
  end
  local why = why_not(job, name)
  if why ~= nil then
    return refuse("%s", why)
  end
  job.partition = name -- Slurm takes "firm," for firm, and shows it so: a change, and firm-slurm, would not know it
  job.min_nodes, job.max_nodes = 1, 1
  local most = (job.array_inx or ""):match("%%(%d+)$") -- sbatch --array=1-100%5
  job.comment = with_most(without(without(without(job.comment, HELD), RELEASED), ADMIN), most)
  if job.priority == 0 then -- sbatch --hold
    job.comment = with(job.comment, HELD)
  end
  job.priority = 0
  job.requeue = 1
  return slurm.SUCCESS
end

function firm_modify(job, record, partitions, uid)
  local is_ours, moves = CPUS[record.partition] ~= nil, job.partition ~= nil and job.partition ~= record.partition
  if BRIDGE[uid] then
    if is_ours then
      mark(job, record)
    end
    return slurm.SUCCESS
  end
  local long = why_long(job)
  if long ~= nil then
    return deny(long)
  end
  if not (is_ours or moves) then
    return slurm.SUCCESS
  end
  if moves and (is_ours or partition_of(job, partitions) ~= nil) then
    return deny("a job does not change to or from a partition that firm decides")
  end
  if not is_ours then
    return slurm.SUCCESS
  end
  local why = why_unchanged(job, record.partition)
  if why ~= nil then
    return deny(why)
  end
  if is_asked(job.begin_time) and job.begin_time > 0 and record.priority ~= 0 then -- as one that its owner requeued
    return deny("firm decides when a job starts that is not held")
  end
  local comment = kept_comment(job, record)
  if job.array_inx ~= nil then -- scontrol update ArrayTaskThrottle=5
    comment = with_most(comment, job.array_inx:match("^%%?(%d+)$"))
  end
  if job.priority == 0 then -- scontrol hold
    comment = with(without(without(comment, HELD), RELEASED), HELD)
  elseif job.priority ~= nil and job.priority ~= slurm.NO_VAL then
    if not has(record.comment, HELD) then
      return deny("firm decides when a job is released")
    end
    -- It stays held, and firm may place it again.
    comment, job.priority = with(without(without(comment, HELD), RELEASED), RELEASED), slurm.NO_VAL
  end
  if job.comment ~= nil or comment ~= record.comment then
    job.comment = comment
  end
  return slurm.SUCCESS
end

-- The same, with an error within as a refusal: Slurm takes a job after one, and doesn't hold it.
local function safely(call)
  return function(...)
    local is_whole, answer = pcall(call, ...)
    if is_whole then
      return answer
    end
    slurm.log_error("firm: %s", tostring(answer))
    return slurm.ERROR
  end
end

firm_submit, firm_modify = safely(firm_submit), safely(firm_modify)
slurm_job_submit, slurm_job_modify = firm_submit, firm_modify
return slurm.SUCCESS
