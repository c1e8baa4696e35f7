// A Server that starts the keeper, which starts `snova serve` and a player: Snova.boot.
//
// From the top of the repository this puts it where sclang finds it:
//     ln -s "$PWD/bridge/sclang" ~/.local/share/SuperCollider/Extensions/snova
Snova : Server {
    // The program and the player's command; without one, a player that is installed is taken.
    classvar <>program, <>player;
    // Further settings, such as "latency=100".
    classvar <>settings;

    *initClass { settings = [] }

    // The top of the repository.
    *top { ^File.realpath(this.filenameSymbol.asString).dirname.dirname.dirname }

    // The server that is started here, which is the default one from then on.
    *boot { |onComplete|
        var server = Server.named[\snova] ?? {
            this.new(\snova, NetAddr("127.0.0.1", 57110), this.defaultOptions)
        };
        Server.default = server;
        server.waitForBoot(onComplete);
        ^server
    }

    *defaultOptions {
        ^ServerOptions.new.numAudioBusChannels_(128).numControlBusChannels_(1024).numBuffers_(1024)
            .maxLogins_(8).numInputBusChannels_(0)
    }

    *defaultPlayer { |rate, channels|
        var found = [
            "pw-cat" -> "pw-cat -p --raw --format s16 --rate % --channels % -",
            "aplay" -> "aplay -q -t raw -f S16_LE -r % -c %"
        ].detect { |each| ("command -v" + each.key).unixCmdGetStdOut.size > 0 };
        if(found.isNil) { "Snova: neither pw-cat nor aplay is installed, so there is no player".warn; ^"" };
        ^found.value.format(rate, channels)
    }

    // The keeper's settings for the options.
    words {
        var rate = (options.sampleRate ? 48000).asInteger, channels = options.numOutputBusChannels;
        var command = player ?? { this.class.defaultPlayer(rate, channels) };
        ^[
            "snova=" ++ (program ?? { this.class.top +/+ "crates/snova/out/snova" }),
            "port=" ++ addr.port, "rate=" ++ rate, "channels=" ++ channels,
            "clients=" ++ options.maxLogins.clip(1, 16), "player=" ++ command
        ] ++ settings
    }

    // The memory that the bridge shares has waves alone, which a ScopeView finds itself, and no control buses.
    connectSharedMemory {}

    disconnectSharedMemory {}

    // What runs at the port already, as a service does, is played, and isn't ended with sclang.
    prPingApp { |func, onFailure, timeout = 3|
        super.prPingApp({
            "A session runs at port % already. It is played, and no other is started.".format(addr.port).postln;
            sendQuit = false;
            statusWatcher.startAliveThread
        }, onFailure, timeout)
    }

    bootServerApp { |onComplete|
        var live = this.class.top +/+ "bridge/live.py";
        var command = ["exec python3", live.shellQuote] ++ this.words.collect(_.shellQuote);
        pid = command.join(" ").unixCmd { |status| this.prOnServerProcessExit(status) };
        "Booting snova on port %.".format(addr.port).postln;
        this.connectToServerAddr(onComplete, maxAttempts: 20)
    }
}
