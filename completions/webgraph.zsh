#compdef webgraph
# Completions of webgraph for zsh. Made by completions/make.

_webgraph_archives() {
    _path_files -/ -g '*.properties(:r)'
}

_webgraph() {
    local curcontext=$curcontext state line
    local -a commands layout
    layout=(
        '--window=[how many pages back a reference may reach]:number: '
        '--chain=[how many references one after the other, or none for no limit]:word:(none)'
        '--interval=[the least length of an interval]:number: '
        '--zeta=[the parameter of zeta]:number: '
        '--outdegrees=[the code of outdegrees]:word:(gamma delta)'
        '--references=[the code of references]:word:(unary gamma delta)'
        '--blockcounts=[the code of block counts]:word:(unary gamma delta)'
        '--blocks=[the code of copy blocks]:word:(gamma delta)'
        '--residuals=[the code of residuals]:word:(zeta gamma delta nibble)'
        '--offsets=[the code of the offsets file]:word:(gamma delta)'
    )
    _arguments -C ':command:->command' '*:: :->words'
    case $state in
        command)
            commands=(
                'check:validate an archive'
                'arcs:print the arcs'
                'offsets:print where the records begin'
                'ascii:print the graph as a plain text'
                'show:print the successors of pages'
                'spot:print the successors of a page, with no check of the others'
                'rank:print the first pages by PageRank'
                'verify:verify a certificate of ranks'
                'build:write the graph of an arc list'
                'import:write the graph of a plain text'
                'quotient:write a graph of classes of pages'
                'recode:write a graph in other parameters'
                'union:write the union of two graphs'
                'transpose:write a graph with each arc the other way round'
                'bulk:build, check and rank a graph in memory'
            )
            _describe command commands
            ;;
        words)
            case $line[1] in
                check|arcs|offsets|ascii) _arguments -S ':archive:_webgraph_archives' ;;
                show) _arguments -S ':archive:_webgraph_archives' '*:numbers: ' ;;
                spot) _arguments -S ':archive:_webgraph_archives' ':number: ' ;;
                rank) _arguments -S '--rounds=[how many rounds]:number: ' '--damping=[the damping in thousandths]:number: ' '--top=[how many lines]:number: ' '--weights=[the weights of the pages]:file:_files' '--certificate=[where the certificate goes]:file:_files' ':archive:_webgraph_archives' ;;
                verify) _arguments -S '--weights=[the weights of the pages]:file:_files' ':archive:_webgraph_archives' ':file:_files' ;;
                build) _arguments -S '--nodes=[how many pages]:number: ' $layout ':file:_files' ':archive:_webgraph_archives' ;;
                import) _arguments -S $layout ':file:_files' ':archive:_webgraph_archives' ;;
                quotient) _arguments -S '--classes=[how many classes]:number: ' $layout ':archive:_webgraph_archives' ':file:_files' ':archive:_webgraph_archives' ;;
                recode|transpose) _arguments -S $layout ':archive:_webgraph_archives' ':archive:_webgraph_archives' ;;
                union) _arguments -S $layout ':archive:_webgraph_archives' ':archive:_webgraph_archives' ':archive:_webgraph_archives' ;;
                bulk) _arguments -S ':number: ' ':number: ' ;;
            esac
            ;;
    esac
}

_webgraph "$@"
