# Completion of bkd's words for fish: copy it to ~/.config/fish/completions
# (bench/words.py writes it from docs/commands.txt)
function __bkd_words
    count (commandline -opc)
end
complete -c bkd -f
complete -c bkd -n 'test (__bkd_words) -eq 1' -a '(__fish_complete_directories)'
complete -c bkd -n 'test (__bkd_words) -eq 1' -a 'help --help --version'
complete -c bkd -n 'test (__bkd_words) -eq 2' -a run -d 'Does the lines of a script, read to its end, answers each, and commits at the end if something changed.'
complete -c bkd -n 'test (__bkd_words) -eq 2' -a load -d 'Adds a document for each record of a CSV table and commits. All records are loaded, or none.'
complete -c bkd -n 'test (__bkd_words) -eq 2' -a explain -d 'Says of each query, one a line, what it reads in the stored segments.'
complete -c bkd -n 'test (__bkd_words) -eq 2' -a check -d 'Reads every page that the commit needs, and says ok or the first damage.'
complete -c bkd -n 'test (__bkd_words) -eq 2' -a generate -d 'Makes an index of N drawn documents in two dimensions, and says what drawn queries find.'
complete -c bkd -n 'test (__bkd_words) -eq 2' -a session -d 'Does the lines of a script as they come, each answered before the next is read.'
complete -c bkd -n 'test (__bkd_words) -eq 2' -a count -d 'Counts live points in boxes and in the buckets of grids.'
complete -c bkd -n 'test (__bkd_words) -eq 2' -a ranges -d 'Does the lines of a script over documents of ranges.'
complete -c bkd -n 'test (__bkd_words) -eq 2' -a batch -d 'Answers queries from a copy in memory, parts of the list beside each other.'
complete -c bkd -n 'test (__bkd_words) -eq 2' -a export -d 'Writes all live documents as CSV, a record for each point, by number.'
complete -c bkd -n 'test (__bkd_words) -eq 2' -a info -d 'Says how large the index is, without reading a leaf.'
complete -c bkd -n 'test (__bkd_words) -eq 2' -a clean -d 'Checks the folder, and takes away its files that the commit doesn\'t list.'
complete -c bkd -n '__fish_seen_subcommand_from run explain session count ranges' -l cache -x -d 'How many pages of 4,096 bytes are kept, 1 to 65,536; 1,024 where it is left out.'
complete -c bkd -n '__fish_seen_subcommand_from run load generate session ranges batch' -l forks -x -d 'How many levels of a build run in two threads each, 0 to 6; 1 where it is left out.'
complete -c bkd -n '__fish_seen_subcommand_from load' -l columns -x -d '1 to 8 names of columns, parted by commas.'
complete -c bkd -n '__fish_seen_subcommand_from generate' -l docs -x -d 'How many documents, 1 to 1,000,000.'
complete -c bkd -n '__fish_seen_subcommand_from generate' -l seed -x -d '1 to 2,147,483,646.'
complete -c bkd -n '__fish_seen_subcommand_from batch' -l merge -d 'Merges the segments beside the answering, and commits that.'
complete -c bkd -n '__fish_seen_subcommand_from export' -l as-ranges -d 'Names the columns as lower and upper ends of ranges.'
complete -c bkd -n '__fish_seen_subcommand_from run load explain check generate session count ranges batch export info clean' -l wait -x -d 'How long to wait where another run holds the folder, 0 to 3,600; 0 where it is left out.'
complete -c bkd -n '__fish_seen_subcommand_from run load explain check generate session count ranges batch export info clean' -l no-lock -d 'Works without a lock, where the file system has none: nothing then keeps a second run out.'
