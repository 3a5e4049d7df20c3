-- The transaction of the benchmark under GHC's STM: 4 reads and 2 writes, committed.
-- Prints nanoseconds for one, the fastest of several rounds.
module Main (main) where

import Control.Monad (forM_, replicateM)
import Data.Word (Word32)
import GHC.Clock (getMonotonicTimeNSec)
import GHC.Conc (TVar, atomically, newTVarIO, readTVar, writeTVar)

transaction :: TVar Word32 -> TVar Word32 -> TVar Word32 -> TVar Word32 -> Word32 -> IO Word32
transaction a b c d i = atomically $ do
  w <- readTVar a
  x <- readTVar b
  y <- readTVar c
  z <- readTVar d
  let total = w + x + y + z
  writeTVar a $! total + i
  writeTVar b i
  return $! total

main :: IO ()
main = do
  ~[a, b, c, d] <- replicateM 4 (newTVarIO 0)
  let times = 20000 :: Word32
      oneRound = do
        begin <- getMonotonicTimeNSec
        forM_ [1 .. times] (transaction a b c d)
        end <- getMonotonicTimeNSec
        return (fromIntegral (end - begin) / fromIntegral times :: Double)
  rounds <- replicateM 30 oneRound
  print (minimum rounds)
