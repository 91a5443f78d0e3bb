# Completions of webgraph for fish. Made by completions/make.

# The folders and archives among the files that fish itself completes the word to, whatever quotes and ~ it has.
function __webgraph_archives
    complete -C "'' "(commandline -ct) | string match -r '^.*/$|^.*(?=\.properties$)'
end

# Whether the word to complete is this one of the command, counted from 1.
function __webgraph_is_at -a command place
    set -l words (commandline -opc)
    test "$words[2]" = $command; or return 1
    set -l is_value no
    for word in $words[3..]
        if test $is_value = yes
            set is_value no
        else if string match -qr '^--[a-z]+$' -- $word
            set is_value yes
        else if not string match -qr '^--' -- $word
            set place (math $place - 1)
        end
    end
    test $place = 1
end

complete -c webgraph -f
complete -c webgraph -n __fish_use_subcommand -a check -d 'validate an archive'
complete -c webgraph -n __fish_use_subcommand -a arcs -d 'print the arcs'
complete -c webgraph -n __fish_use_subcommand -a offsets -d 'print where the records begin'
complete -c webgraph -n __fish_use_subcommand -a ascii -d 'print the graph as a plain text'
complete -c webgraph -n __fish_use_subcommand -a show -d 'print the successors of pages'
complete -c webgraph -n __fish_use_subcommand -a spot -d 'print the successors of a page, with no check of the others'
complete -c webgraph -n __fish_use_subcommand -a rank -d 'print the first pages by PageRank'
complete -c webgraph -n __fish_use_subcommand -a verify -d 'verify a certificate of ranks'
complete -c webgraph -n __fish_use_subcommand -a build -d 'write the graph of an arc list'
complete -c webgraph -n __fish_use_subcommand -a import -d 'write the graph of a plain text'
complete -c webgraph -n __fish_use_subcommand -a quotient -d 'write a graph of classes of pages'
complete -c webgraph -n __fish_use_subcommand -a recode -d 'write a graph in other parameters'
complete -c webgraph -n __fish_use_subcommand -a union -d 'write the union of two graphs'
complete -c webgraph -n __fish_use_subcommand -a transpose -d 'write a graph with each arc the other way round'
complete -c webgraph -n __fish_use_subcommand -a bulk -d 'build, check and rank a graph in memory'
complete -c webgraph -n '__webgraph_is_at check 1' -a '(__webgraph_archives)'
complete -c webgraph -n '__webgraph_is_at arcs 1' -a '(__webgraph_archives)'
complete -c webgraph -n '__webgraph_is_at offsets 1' -a '(__webgraph_archives)'
complete -c webgraph -n '__webgraph_is_at ascii 1' -a '(__webgraph_archives)'
complete -c webgraph -n '__webgraph_is_at show 1' -a '(__webgraph_archives)'
complete -c webgraph -n '__webgraph_is_at spot 1' -a '(__webgraph_archives)'
complete -c webgraph -n '__webgraph_is_at rank 1' -a '(__webgraph_archives)'
complete -c webgraph -n '__webgraph_is_at verify 1' -a '(__webgraph_archives)'
complete -c webgraph -n '__webgraph_is_at verify 2' -F
complete -c webgraph -n '__webgraph_is_at build 1' -F
complete -c webgraph -n '__webgraph_is_at build 2' -a '(__webgraph_archives)'
complete -c webgraph -n '__webgraph_is_at import 1' -F
complete -c webgraph -n '__webgraph_is_at import 2' -a '(__webgraph_archives)'
complete -c webgraph -n '__webgraph_is_at quotient 1' -a '(__webgraph_archives)'
complete -c webgraph -n '__webgraph_is_at quotient 2' -F
complete -c webgraph -n '__webgraph_is_at quotient 3' -a '(__webgraph_archives)'
complete -c webgraph -n '__webgraph_is_at recode 1' -a '(__webgraph_archives)'
complete -c webgraph -n '__webgraph_is_at recode 2' -a '(__webgraph_archives)'
complete -c webgraph -n '__webgraph_is_at union 1' -a '(__webgraph_archives)'
complete -c webgraph -n '__webgraph_is_at union 2' -a '(__webgraph_archives)'
complete -c webgraph -n '__webgraph_is_at union 3' -a '(__webgraph_archives)'
complete -c webgraph -n '__webgraph_is_at transpose 1' -a '(__webgraph_archives)'
complete -c webgraph -n '__webgraph_is_at transpose 2' -a '(__webgraph_archives)'
complete -c webgraph -n '__fish_seen_subcommand_from rank' -l rounds -x -d 'how many rounds'
complete -c webgraph -n '__fish_seen_subcommand_from rank' -l damping -x -d 'the damping in thousandths'
complete -c webgraph -n '__fish_seen_subcommand_from rank' -l top -x -d 'how many lines'
complete -c webgraph -n '__fish_seen_subcommand_from rank verify' -l weights -rF -d 'the weights of the pages'
complete -c webgraph -n '__fish_seen_subcommand_from rank' -l certificate -rF -d 'where the certificate goes'
complete -c webgraph -n '__fish_seen_subcommand_from build' -l nodes -x -d 'how many pages'
complete -c webgraph -n '__fish_seen_subcommand_from quotient' -l classes -x -d 'how many classes'
complete -c webgraph -n '__fish_seen_subcommand_from build import quotient recode union transpose' -l window -x -d 'how many pages back a reference may reach'
complete -c webgraph -n '__fish_seen_subcommand_from build import quotient recode union transpose' -l chain -xa 'none' -d 'how many references one after the other, or none for no limit'
complete -c webgraph -n '__fish_seen_subcommand_from build import quotient recode union transpose' -l interval -x -d 'the least length of an interval'
complete -c webgraph -n '__fish_seen_subcommand_from build import quotient recode union transpose' -l zeta -x -d 'the parameter of zeta'
complete -c webgraph -n '__fish_seen_subcommand_from build import quotient recode union transpose' -l outdegrees -xa 'gamma delta' -d 'the code of outdegrees'
complete -c webgraph -n '__fish_seen_subcommand_from build import quotient recode union transpose' -l references -xa 'unary gamma delta' -d 'the code of references'
complete -c webgraph -n '__fish_seen_subcommand_from build import quotient recode union transpose' -l blockcounts -xa 'unary gamma delta' -d 'the code of block counts'
complete -c webgraph -n '__fish_seen_subcommand_from build import quotient recode union transpose' -l blocks -xa 'gamma delta' -d 'the code of copy blocks'
complete -c webgraph -n '__fish_seen_subcommand_from build import quotient recode union transpose' -l residuals -xa 'zeta gamma delta nibble' -d 'the code of residuals'
complete -c webgraph -n '__fish_seen_subcommand_from build import quotient recode union transpose' -l offsets -xa 'gamma delta' -d 'the code of the offsets file'
