"""The tests of the tools, with unittest. The program that they ask is $CPGC, else the one that is built in crates/cpgc.

    tools/test-tools PROGRAM [NAME ..]          all of them, or some, as test_slack or test_slack.Slack.test_pair
    CPGC=PROGRAM python3 -m unittest discover -s tools/tests -t tools
"""
